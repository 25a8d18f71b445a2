-- Items, named fields, computed keys, and the separators.
local t = {}
print(#t, next(t))
t = {1, 2, 3}
print(#t, t[1], t[3])
t = {x = 1, y = 2; "one", ["key with blanks"] = 3, [10] = "ten"; "two",}
print(#t, t.x, t.y, t[1], t[2], t["key with blanks"], t[10])
t = {{1, 2}, {3, {4}}, f = function() return "f" end}
print(t[1][2], t[2][2][1], t.f())
t = {[true] = "true", [false] = "false", [print] = "print", [-1] = "minus"}
print(t[true], t[false], t[print], t[-1])
t = {["end"] = 1, ["1"] = "text", [1] = "number"}
print(t["end"], t["1"], t[1])
