-- A handler is the metatable's own field, not one that its metatable has.
local mt = setmetatable({}, {__index = {__add = function() return "inherited" end, __index = {x = 1}}})
local t = setmetatable({}, mt)
print(t.x, (pcall(function() return t + 1 end)))
rawset(mt, "__add", function() return "own" end)
print(t + 1)
