-- Differs from Lua, which stores the items later: fields are set one by one, in order, so the last one wins.
local t = {[1] = "keyed", "item"}
print(t[1], #t)
t = {"item", [1] = "keyed"}
print(t[1], #t)
t = {"a", "b", [2] = "keyed b", "c"}
print(t[1], t[2], t[3])
t = {x = 1, x = 2, ["x"] = 3}
print(t.x)
t = {1, 2, 3, [2] = nil}
print(t[1], t[2], t[3], #t)
