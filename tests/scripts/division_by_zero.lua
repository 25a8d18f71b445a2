-- Differs from Lua in the text of the fault, which is one for both operators.
print(pcall(function() return 1 // 0 end))
print(pcall(function() return 1 % 0 end))
print(pcall(function() return 0 // 0 end))
print(pcall(function() return math.mininteger % 0 end))
print(pcall(function() return "7" // "0" end))
local zero = 0
print(-7 // zero)
