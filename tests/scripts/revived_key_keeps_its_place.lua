-- Differs from Lua, which leaves the order open: a cleared key that is set again stands in its old place.
local t = {}
t.a, t.b, t.c = 1, 2, 3
t.b = nil
t.b = 20
for k, v in pairs(t) do print(k, v) end
