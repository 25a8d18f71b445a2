-- Differs from Lua in the text, and a call of a handler has no position: a handler that can't be called is a fault.
local t = setmetatable({}, {__add = 5, __lt = true, __concat = "x", __len = {}, __unm = 1, __eq = 7})
print(pcall(function() return t + 1 end))
print(pcall(function() return t < t end))
print(pcall(function() return t .. "x" end))
print(pcall(function() return #t end))
print(pcall(function() return -t end))
print(pcall(function() return t == setmetatable({}, {}) end))
