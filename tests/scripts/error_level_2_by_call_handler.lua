-- A function that is reached through `__call` was called by the call expression.
local t = setmetatable({}, {__call = function() error("message", 2) end})
print(pcall(function()

  t() -- line 5
  return 1
end))
print(pcall(t))
