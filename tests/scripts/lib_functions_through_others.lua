-- Differs from Lua in the text: a library function that another one calls raises without a position.
print(pcall(setmetatable, nil))
print(pcall(pcall, setmetatable, nil))
print(xpcall(setmetatable, function(e) return e end, nil))
print(pcall(function() return (setmetatable(nil)) end))
local t = setmetatable({}, {__index = setmetatable})
print(pcall(function() return t.x end))
local u = setmetatable({}, {__call = setmetatable})
print(pcall(function() return u(5) end))
