-- A text may have several lines.
error("one\ntwo", 0)
