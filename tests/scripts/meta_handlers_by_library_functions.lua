-- Library functions serve as handlers.
local t = setmetatable({}, {__index = rawget, __add = math.max, __call = select, __len = type, __concat = rawequal})
print(t.x, #t, t .. t)
local u = setmetatable({}, {__index = function(...) return select("#", ...) end, __unm = rawlen})
print(u.x, -u)
local seen = {}
local v = setmetatable({}, {__newindex = rawset})
v.x = 1
print(rawget(v, "x"))
