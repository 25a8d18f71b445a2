-- Differs from Lua in the text and the status: an assignment to a constant is refused before anything runs.
print("never")
local c <const> = 1
c = 2
