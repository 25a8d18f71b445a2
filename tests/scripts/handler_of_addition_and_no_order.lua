-- Differs from Lua in the text: a metatable with one handler.
local t = setmetatable({}, {__add = function() return 7 end})
print(t + 1, 1 + t, #t, pcall(function() return t < t end))
