-- Several captured locals are assigned at once.
local a, b, c = 1, 2, 3
local function get() return a, b, c end
a, b, c = b, c, a
print(get())
local function turn() a, b, c = c, a, b end
turn()
print(a, b, c)
local t = {}
a, t.a, b = t, a, "b"
print(a == t, t.a, b)
