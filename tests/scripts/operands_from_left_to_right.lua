-- Differs from Lua, where a local's value may be read late: the left operand is evaluated first.
local function say(n) print("operand", n) return n end
print(say(1) + say(2) * say(3))
print((say(4) + say(5)) * say(6))
print(say(7) < say(8), say(9) > say(10), say(11) == say(12))
print(say("a") .. say("b") .. say("c"))
local a = 1
local function change() a = 10 return 1 end
print(a + change(), a)
a = 1
print(change() + a, a)
a = 1
local t = {a, change(), a}
print(t[1], t[2], t[3])
