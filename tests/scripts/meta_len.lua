-- `__len` gives any value, and its first alone.
print(#setmetatable({}, {__len = function() return 42, 43 end}))
print(#setmetatable({}, {__len = function() return "text" end}))
print(#setmetatable({1, 2}, {__len = function() return nil end}))
print(#setmetatable({1, 2}, {__len = function() end}))
print(#setmetatable({1, 2}, {}))
print(rawlen(setmetatable({1, 2}, {__len = function() return 42 end})))
local t = setmetatable({1, 2, 3}, {__len = function(t) return rawlen(t) * 2 end})
print(#t, -#t, #t + 1)
