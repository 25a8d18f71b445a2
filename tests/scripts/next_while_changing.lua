-- Fields that are there may be changed during a walk.
local t = {a = 1, b = 2, c = 3, 10, 20}
for k, v in pairs(t) do t[k] = v * 2 end
print(t.a, t.b, t.c, t[1], t[2])
local n = 0
for k, v in pairs(t) do n = n + v end
print(n)
