-- An operator takes the first value of its handler, and nil where it has none.
local t = setmetatable({}, {__add = function() return 1, 2, 3 end, __sub = function() end, __index = function() return 4, 5 end, __concat = function() end})
print(t + 1)
print(t - 1)
print(t.x)
print(t .. "x")
local u = {t + 1, t + 1}
print(#u, u[1], u[2])
