-- The least and the greatest integer in each operator.
local max, min = math.maxinteger, math.mininteger
print(max + 1 == min, min - 1 == max, -min == min, max * 2, min * 2, min // -1 == min, min % -1)
print(max // 2, min // 2, max % 10, min % 10, max & min, max | min, max ~ min, ~max == min)
print(max << 1, min >> 63, max > min, min < -max, max == 0x7fffffffffffffff, min == 0x8000000000000000)
print(min .. "", max .. "", -max - 1 == min, "-9223372036854775808" + 0 == min)
