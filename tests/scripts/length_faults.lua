-- Differs from Lua in the text, which names no variable.
print(pcall(function() return #nil end))
print(pcall(function() return #5 end))
print(pcall(function() return #true end))
print(pcall(function() return #print end))
local x
print(pcall(function() return #x end))
