-- Differs from Lua, which stores the last target first: here the first target is stored first, so the last one wins.
local t = {}
t.a, t.a, t.a = 1, 2, 3
print(t.a)
local x
x, x = "first", "last"
print(x)
local log = setmetatable({}, {__newindex = function(t, k, v) print("store", k, v) end})
log.a, log.b, log.c = 1, 2, 3
