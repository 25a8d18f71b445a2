-- Quotients are rounded down, and the least integer divided by -1 wraps.
print(7 // 2, -7 // 2, 7 // -2, -7 // -2)
print(6 // 3, -6 // 3, 6 // -3, -6 // -3, 0 // 5, 0 // -5)
print(1 // 3, -1 // 3, 1 // -3, -1 // -3)
print(math.mininteger // -1, math.mininteger // 1, math.maxinteger // -1, math.mininteger // 2, math.maxinteger // math.mininteger, math.mininteger // math.maxinteger)
