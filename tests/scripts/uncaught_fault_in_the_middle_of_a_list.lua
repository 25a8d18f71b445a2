-- Arguments before a fault were evaluated, and the call isn't made.
local function say(x) print("argument", x) return x end
print(say(1), say(2), nil + 1, say(3))
