-- Products wrap round.
local max, min = math.maxinteger, math.mininteger
print(6 * 7, -6 * 7, -6 * -7, 0 * 5)
print(max * 2, max * max, min * -1 == min, min * min, min * 3 == min)
print(4294967296 * 4294967296, 3037000500 * 3037000500, 0x100000001 * 0x100000001)
