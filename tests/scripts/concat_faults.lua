-- Differs from Lua in the text, which names no variable.
local t = {}
print(pcall(function() return "a" .. nil end))
print(pcall(function() return nil .. "a" end))
print(pcall(function() return t .. true end))
print(pcall(function() return true .. t end))
print(pcall(function() return 1 .. t end))
print(pcall(function() return "a" .. "b" .. print end))
print(pcall(function() return "a" .. {} .. "b" end))
