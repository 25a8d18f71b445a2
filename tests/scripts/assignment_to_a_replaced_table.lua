-- Differs from Lua, where a local's value may be read late: the object of a target is the one before the values were evaluated.
local t = {name = "old"}
local old = t
t.x = (function() t = {name = "new"} return 1 end)()
print(t.name, t.x, old.x)
local a, b = {}, {}
local first = a
a.v, b.v = (function() a, b = b, a return "one" end)(), "two"
print(first.v, a.v, b.v)
