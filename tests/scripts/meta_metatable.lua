-- `__metatable` hides the metatable and protects it.
local t = setmetatable({}, {__metatable = "hidden"})
print(getmetatable(t))
print(pcall(setmetatable, t, {}))
print(pcall(setmetatable, t, nil))
print(pcall(function() setmetatable(t, {}) end))
local f = setmetatable({}, {__metatable = false})
print(getmetatable(f), pcall(setmetatable, f, nil))
local mt = {}
local u = setmetatable({}, mt)
print(getmetatable(u) == mt, setmetatable(u, nil) == u, getmetatable(u))
mt.__metatable = mt
setmetatable(u, mt)
print(getmetatable(u) == mt, pcall(setmetatable, u, mt))
