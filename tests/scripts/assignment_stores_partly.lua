-- Differs from Lua, which stores the last target first: a store that fails leaves the ones before it done.
local t, u = {}, nil
print(pcall(function() t.a, u.b, t.c = 1, 2, 3 end))
print(t.a, t.c)
