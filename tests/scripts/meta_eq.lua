-- `__eq` is asked for two different tables alone, and its value is made a boolean.
local calls = 0
local mt = {__eq = function(a, b) calls = calls + 1 return a.v == b.v and "yes" or nil end}
local function v(x) return setmetatable({v = x}, mt) end
local a, b, c = v(1), v(1), v(2)
print(a == b, a == c, a ~= b, a ~= c, calls)
print(a == a, a ~= a, calls)
print(a == 1, 1 == a, a == nil, a == "a", a == print, calls)
print(a == {v = 1}, {v = 1} == a, calls)
print(rawequal(a, b), rawequal(a, a), calls)
local t = {[a] = "a"}
print(t[a], t[b], calls)
