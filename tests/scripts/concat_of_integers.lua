-- Integers are joined by their decimal text.
print(1 .. 2, 1 .. "", "" .. -5, 0x10 .. "x", math.mininteger .. "|" .. math.maxinteger)
print(type(1 .. 2), 1 .. 2 == "12", 10 .. 20 + 1)
print("a" .. "b" .. "c" .. 1 .. 2 .. 3, "" .. "", "a" .. "")
