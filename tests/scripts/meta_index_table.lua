-- `__index` as a table: absent keys are looked up there.
local base = {x = 1, y = 2}
local t = setmetatable({x = 10}, {__index = base})
print(t.x, t.y, t.z, t[1])
base.z = 3
print(t.z, rawget(t, "z"))
t.y = 20
print(t.y, base.y)
t.x = nil
print(t.x)
