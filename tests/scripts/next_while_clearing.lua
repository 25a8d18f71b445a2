-- Fields may be cleared during a walk.
local t = {}
for i = 1, 100 do t[i] = i t["k" .. i] = i end
local n, sum = 0, 0
for k, v in pairs(t) do
  n, sum = n + 1, sum + v
  t[k] = nil
end
print(n, sum, next(t))
t = {a = 1, b = 2, c = 3}
for k in next, t do t[k] = nil end
print(next(t), t.a, t.b, t.c)
