-- A fault that nothing catches, with the line where it is raised in a handler.
local t = setmetatable({}, {__index = function(t, k)
  return k + {} -- line 3
end})
print(t[1])
