-- Differs from Lua in the text: 0 and places before the first are bad arguments.
print(pcall(select, 0, "a"))
print(pcall(select, -2, "a"))
print(pcall(select, -1))
print(pcall(select, math.mininteger, 1))
print(pcall(select))
print(pcall(select, "x"))
print(pcall(select, {}))
print(pcall(function() select(nil, 1) end))
