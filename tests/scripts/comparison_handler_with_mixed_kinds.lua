-- `__lt` and `__le` for a table beside another kind, and which operand's handler is asked.
local mt = {__lt = function(a, b) return type(a) .. " < " .. type(b) end, __le = function(a, b) return nil end}
local t = setmetatable({}, mt)
print(t < 1, 1 < t, t < "x", "x" > t, t < nil, true < t)
print(t <= 1, 1 <= t, t >= nil)
print((pcall(function() return {} < {} end)), ({} < t))
