-- Differs from Lua in the text: of several bad arguments the first is named.
print(pcall(setmetatable, 1, 2))
print(pcall(rawset, nil))
print(pcall(math.ult, "x", {}))
print(pcall(math.max, 1, {}, nil))
print(pcall(tonumber, 5, 99))
