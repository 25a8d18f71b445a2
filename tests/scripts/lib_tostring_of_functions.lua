-- Differs from Lua, which shows addresses: library functions show their names, others their numbers.
print(print, tostring(pcall), tostring(math.max), math.type, type, select, setmetatable, rawequal)
print((ipairs({})), (pairs({})))
print(function() end)
local function f() end
local g = function() end
print(f, g, tostring(f) == tostring(f), tostring(f) == tostring(g))
