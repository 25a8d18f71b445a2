-- A handler of an operator may be a table with `__call`; as `__index` a table is indexed, not called.
local callable = setmetatable({y = "field y"}, {__call = function(self, a, b) return "called with " .. tostring(b) end})
local t = setmetatable({}, {__add = callable, __index = callable, __len = callable})
print(t + 5, t.y, t.z)
print((#t) ~= nil)
