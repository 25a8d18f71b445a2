-- The raw functions ask for no handler.
local t = setmetatable({1, 2}, {
  __index = function() return "index" end, __newindex = function() print("newindex") end,
  __len = function() return 100 end, __eq = function() return true end,
})
print(rawget(t, "x"), t.x, rawlen(t), #t)
print(rawset(t, "x", 1) == t, rawget(t, "x"))
print(rawequal(t, setmetatable({}, getmetatable(t))), t == setmetatable({}, getmetatable(t)))
t.y = 1
print(rawget(t, "y"))
