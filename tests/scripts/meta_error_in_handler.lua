-- An error of a handler goes through the operator.
local t = setmetatable({}, {__add = function() error("in add") end, __index = function(_, k) error({key = k}) end, __lt = function() error("in lt", 2) end})
print(pcall(function() return t + 1 end))
local ok, e = pcall(function() return t.field end)
print(ok, e.key)
print((pcall(function() return t < t end)))
