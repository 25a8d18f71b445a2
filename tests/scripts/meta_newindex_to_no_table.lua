-- A handler that can't be set is a fault.
local t = setmetatable({}, {__newindex = 5})
print(pcall(function() t.x = 1 end))
print(pcall(function() t[nil] = 1 end))
