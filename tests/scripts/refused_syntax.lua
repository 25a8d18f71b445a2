-- Differs from Lua in the text and the status: a token that goes on with nothing.
print("never")
local x = = 1
