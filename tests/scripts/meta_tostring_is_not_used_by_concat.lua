-- Differs from Lua in the text: `..` asks for no `__tostring`.
local t = setmetatable({}, {__tostring = function() return "text" end})
print(pcall(function() return "x" .. t end))
