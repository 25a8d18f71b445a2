-- Differs from Lua, which has no handles: what a handle is and shows.
local lanes = require "lanes"
local a, b = lanes.linda(), lanes.linda()
print(a, b, type(a), a.send, a.receive)
print(a.nothing, a[1], a[true], a[nil])
print(getmetatable(a), rawequal(a, b))
print(pcall(function() a.x = 1 end))
print(pcall(function() return #a end))
print(pcall(function() return a + 1 end))
print(pcall(function() return a .. "x" end))
print(pcall(function() return a < b end))
print(pcall(function() return a() end))
print(pcall(function() a:nothing() end))
print(pcall(error, a))
