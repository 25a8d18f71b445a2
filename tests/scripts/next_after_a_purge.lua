-- Differs from Lua: where cleared pairs outnumber the others, a new key removes them, and then `next` refuses their keys.
local t = {}
t[1], t[2], t[3] = true, true, true
t[1], t[2] = nil, nil
print(next(t, 1))
t[4] = true
print(next(t))
print(pcall(next, t, 1))
print(next(t, 4))
local u = {}
u.a, u.b = 1, 2
u.a = nil
u.c = 3
print(next(u, "a"))
u.a = 4
for k, v in pairs(u) do print(k, v) end
