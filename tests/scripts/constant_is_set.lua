local c <const> = 1 c = 2 -- Differs from Lua in the text and the status.
