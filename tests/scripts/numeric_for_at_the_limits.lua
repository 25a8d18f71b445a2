-- The variable never wraps at the ends of the integers.
local max, min = math.maxinteger, math.mininteger
for i = max - 1, max do print(i) end
for i = min + 1, min, -1 do print(i) end
for i = max - 5, max, 3 do print(i) end
for i = min + 5, min, -3 do print(i) end
for i = max, max, max do print(i) end
for i = min, min, min do print(i) end
for i = min, max, max do print(i) end
for i = max, min, min do print(i) end
for i = -1, max, max do print(i) end
for i = 1, min, min do print(i) end
for i = max, min do print("never") end
