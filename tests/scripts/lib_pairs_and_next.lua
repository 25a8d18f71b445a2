-- A walk meets each field once.
local t = {10, 20, x = "a", y = "b"}
local n, keys = 0, {}
for k, v in pairs(t) do n = n + 1 keys[k] = v end
print(n, keys[1], keys[2], keys.x, keys.y)
local f, s, c = pairs(t)
print(f == next, s == t, c)
print(next({}), next({5}), next({x = 1}))
local k, v = next({"only"})
print(k, v, next({"only"}, 1))
for k in pairs({}) do print("never") end
print(select("#", next({})), select("#", pairs({})))
