-- Shifts are of 64 bits and fill with zeros; a negative distance goes the other way.
print(1 << 0, 1 << 1, 1 << 62, 1 << 63 == math.mininteger, 1 << 64, 1 << 65, 1 << 1000)
print(1 >> 0, 2 >> 1, -1 >> 1 == math.maxinteger, -1 >> 63, -1 >> 64, -1 >> 100)
print(1 << -1, 4 << -1, 1 >> -1, 1 >> -63 == math.mininteger, 1 >> -64)
print(3 << 63 == math.mininteger, -1 << 4, math.mininteger >> 63, math.mininteger << 1)
print(1 << math.maxinteger, 1 << math.mininteger, 1 >> math.maxinteger, 1 >> math.mininteger, -1 >> math.mininteger)
