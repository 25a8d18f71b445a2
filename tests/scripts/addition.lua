-- Sums and differences wrap round.
local max, min = math.maxinteger, math.mininteger
print(1 + 2, 1 - 2, -1 + -2, 0 - 0)
print(max + 1 == min, min - 1 == max, max + max, min + min)
print(max - min, min - max, -min == min, -max)
