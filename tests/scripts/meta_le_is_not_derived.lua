-- Differs from Lua 5.4 built for 5.3: `__le` is never made from `__lt`.
local t = setmetatable({}, {__lt = function() return true end})
print(t < t, t > t)
print(pcall(function() return t <= t end))
print(pcall(function() return 1 >= t end))
