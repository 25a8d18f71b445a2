-- Differs from Lua in that the fault has no position.
print(pcall(function() for i = 1, 2, 0 do print("never") end end))
print(pcall(function() for i = 2, 1, 0 do print("never") end end))
for i = 1, 1, 0 do end
