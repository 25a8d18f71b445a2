-- `__tostring` is used by `tostring` and `print`.
local t
t = setmetatable({}, {__tostring = function(o) return o == t and "my text" or "other" end})
print(t, tostring(t), tostring(t) == "my text")
print(1, t, nil, t)
print(type(tostring(t)), #tostring(t))
local u = setmetatable({}, {__tostring = function() return "first", "second" end})
print(u)
print((tostring(u)))
