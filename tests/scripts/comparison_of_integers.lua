-- All six operators, at the ends too.
local min, max = math.mininteger, math.maxinteger
print(1 < 2, 2 < 1, 1 < 1, 1 <= 1, 2 <= 1, 1 > 2, 2 > 1, 1 >= 1, 1 >= 2)
print(1 == 1, 1 == 2, 1 ~= 1, 1 ~= 2)
print(min < max, max < min, min < 0, -1 < 0, min <= min, max >= max, min > max, max > min)
