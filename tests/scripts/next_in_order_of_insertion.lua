-- Differs from Lua, which leaves the order open: a walk goes in the order in which keys were first set.
local t = {}
t.z, t.a, t[3], t[1], t[2], t[true] = 1, 2, 3, 4, 5, 6
for k, v in pairs(t) do print(k, v) end
t.a = nil
t.z = 10
t.a = 20
for k, v in pairs(t) do print(k, v) end
local k, v = next(t)
while k ~= nil do print(k, v) k, v = next(t, k) end
