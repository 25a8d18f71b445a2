-- Differs from Lua in the text for two of one kind.
local t, f = {}, print
print(pcall(function() return 1 < "1" end))
print(pcall(function() return "1" < 1 end))
print(pcall(function() return 1 > "1" end))
print(pcall(function() return 1 <= nil end))
print(pcall(function() return 1 >= nil end))
print(pcall(function() return nil < nil end))
print(pcall(function() return true < false end))
print(pcall(function() return t < t end))
print(pcall(function() return t >= f end))
print(pcall(function() return f > t end))
print(pcall(function() return "a" <= t end))
