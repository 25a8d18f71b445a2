-- A new table has no metatable, so nothing is called while its fields are set.
local t = setmetatable({1, 2, x = 3}, {__newindex = function() print("called") end})
print(#t, t.x)
t.x = 4
t.y = 5
print(t.x, t.y)
