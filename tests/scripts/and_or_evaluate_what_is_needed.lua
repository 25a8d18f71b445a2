-- The second operand is evaluated only where it is needed.
local function say(name, v) print(name) return v end
print(say("a", false) and say("b", 1))
print(say("c", 1) and say("d", 2))
print(say("e", 1) or say("f", 2))
print(say("g", nil) or say("h", 2))
local x = say("i", nil) and say("j", 1) or say("k", 3)
print(x)
