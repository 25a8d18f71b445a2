-- `__lt` and `__le`; `>` and `>=` turn the operands round, and the value is made a boolean.
local mt = {}
mt.__lt = function(a, b) print("lt", type(a) == "table" and a.v or a, type(b) == "table" and b.v or b) return 1 end
mt.__le = function(a, b) print("le", type(a) == "table" and a.v or a, type(b) == "table" and b.v or b) return nil end
local function v(x) return setmetatable({v = x}, mt) end
local a, b = v("a"), v("b")
print(a < b)
print(a > b)
print(a <= b)
print(a >= b)
print(a < 1, 1 < a)
print(a > "s", "s" > a)
print(a <= 5, 5 >= a)
print(not (a < b), a <= b == false)
