x = = 1 -- Differs from Lua in the text and the status.
