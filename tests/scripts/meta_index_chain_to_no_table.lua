-- A handler that can't be indexed is a fault.
local t = setmetatable({}, {__index = 5})
print(pcall(function() return t.x end))
local u = setmetatable({}, {__index = true})
print(pcall(function() return u.x end))
print(pcall(function() u.x = 1 return u.x end))
