-- A metatable that changes changes the behaviour of its tables.
local mt = {}
local a, b = setmetatable({}, mt), setmetatable({}, mt)
print(a.x, (pcall(function() return a + b end)))
mt.__index = function(_, k) return k end
mt.__add = function() return "sum" end
print(a.x, b.y, a + b)
mt.__index = {x = "table"}
print(a.x, b.y)
mt.__add = nil
print((pcall(function() return a + b end)))
setmetatable(a, nil)
print(a.x, b.x)
