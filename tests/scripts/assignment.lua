-- One value, several values, too few and too many.
local a, b, c
a = 1
print(a)
a, b, c = 1, 2, 3
print(a, b, c)
a, b, c = 4, 5
print(a, b, c)
a, b = 6, 7, 8
print(a, b, c)
a, b = b, a
print(a, b)
local t = {}
t.x, t.y = 1, 2
t["z"], g = 3, 4
print(t.x, t.y, t.z, g)
