-- Many integer and string keys.
local t, n = {}, 20000
for i = 1, n do t[i] = i * i end
for i = 1, n do t["k" .. i] = -i end
local a, b, count = 0, 0, 0
for i = 1, n do a = a + t[i] b = b + t["k" .. i] end
for _ in pairs(t) do count = count + 1 end
print(#t, a, b, count)
for i = 1, n, 2 do t[i] = nil t["k" .. i] = nil end
count = 0
for _, v in pairs(t) do count = count + 1 end
print(count, t[1], t[2], t.k1, t.k2)
