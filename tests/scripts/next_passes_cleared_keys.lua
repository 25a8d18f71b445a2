-- Differs from Lua in the order, which is promised here: `next` goes on from a key that was cleared.
local t = {}
t.a, t.b, t.c, t.d = 1, 2, 3, 4
t.a, t.c = nil, nil
print(next(t))
print(next(t, "a"))
print(next(t, "b"))
print(next(t, "c"))
print(next(t, "d"))
