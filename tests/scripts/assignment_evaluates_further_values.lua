-- Values beyond the targets are evaluated and dropped.
local function say(x) print("value", x) return x end
local a = say(1), say(2), say(3)
print(a)
a = say(4), say(5)
print(a)
