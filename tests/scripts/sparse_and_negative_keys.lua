-- Keys far apart, and set downwards.
local t = {}
for i = 10, -10, -1 do t[i] = i end
local sum = 0
for k, v in pairs(t) do sum = sum + k * v end
print(#t, sum, t[-10], t[0], t[11])
for i = 0, 62 do t[1 << i] = i end
print(t[1 << 62], t[1 << 40], t[1 << 3])
