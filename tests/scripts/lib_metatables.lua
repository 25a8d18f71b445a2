-- `setmetatable` gives the table, and nil takes the metatable away.
local mt = {__index = {x = 1}}
local t = {}
print(getmetatable(t), setmetatable(t, mt) == t, getmetatable(t) == mt, t.x)
print(setmetatable(t, nil) == t, getmetatable(t), t.x)
print(getmetatable(1), getmetatable(nil), getmetatable(print), getmetatable(true))
setmetatable(mt, mt)
print(getmetatable(mt) == mt, mt.x)
setmetatable(t, {})
print(next(getmetatable(t)))
