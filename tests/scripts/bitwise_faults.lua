-- Differs from Lua in the text, which names no variable: bitwise operators take integers alone, and no strings.
local t = {}
print(pcall(function() return t & 1 end))
print(pcall(function() return 1 | nil end))
print(pcall(function() return true ~ t end))
print(pcall(function() return 1 << t end))
print(pcall(function() return print >> 1 end))
print(pcall(function() return ~t end))
print(pcall(function() return "3" & 1 end))
print(pcall(function() return 1 | "3" end))
print(pcall(function() return ~"3" end))
print(pcall(function() return "a" << 1 end))
