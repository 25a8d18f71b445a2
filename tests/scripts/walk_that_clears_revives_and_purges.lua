-- Differs from Lua, which leaves the order open: what a walk meets after fields were cleared, revived and added.
local t = {} t.a = 1 t.b = 2 t.c = 3
for k in pairs(t) do t[k] = nil end
t.b = 5 t.d = 6 t.a = 7
for k, v in pairs(t) do print(k, v) end
