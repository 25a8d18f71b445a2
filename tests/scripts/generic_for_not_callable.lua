-- Differs from Lua in that a call by a for has no position, and in the text.
print(pcall(function() for x in nil do end end))
print(pcall(function() for x in 5 do end end))
print(pcall(function() for x in {} do end end))
