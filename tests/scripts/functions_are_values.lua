-- Functions in tables, as arguments and as results.
local function twice(f) return function(x) return f(f(x)) end end
local function compose(f, g) return function(...) return f(g(...)) end end
local inc = function(x) return x + 1 end
print(twice(inc)(5), twice(twice(inc))(0), compose(inc, twice(inc))(1))
local ops = {add = function(a, b) return a + b end, ["mul"] = function(a, b) return a * b end}
print(ops.add(2, 3), ops["mul"](2, 3))
print((function(...) return select("#", ...) end)(1, 2, 3))
local function map(t, f) local r = {} for i = 1, #t do r[i] = f(t[i]) end return r end
local m = map({1, 2, 3}, twice(inc))
print(m[1], m[2], m[3])
