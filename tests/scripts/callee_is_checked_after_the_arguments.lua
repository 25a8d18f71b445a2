-- Differs from Lua in the text, which names no variable: what is no function is a fault once the arguments are evaluated.
local function say(x) print("argument", x) return x end
print(pcall(function() local f = nil f(say(1), say(2)) end))
print(pcall(function() nosuch(say(3)) end))
