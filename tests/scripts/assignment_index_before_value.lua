-- The key of a target is evaluated before the values, and before any store.
local i, t = 1, {}
i, t[i] = i + 1, 20
print(i, t[1], t[2])
local a = {1, 2, 3}
local k = 1
k, a[k], a[k + 1] = 3, "one", "two"
print(k, a[1], a[2], a[3])
