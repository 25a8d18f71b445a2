-- Level 0 gives the text alone.
error("just this", 0)
