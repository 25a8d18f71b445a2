-- Differs from Lua in the text: a handler of a call that can't be called is the fault's value.
local t = setmetatable({}, {__call = 5})
print(pcall(function() t() end))
print(pcall(t))
local u = setmetatable({}, {__call = t})
print(pcall(function() u() end))
