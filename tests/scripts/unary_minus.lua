-- The negation wraps at the least integer.
print(-1, - 1, -(-1), -0, -math.maxinteger, -math.mininteger == math.mininteger)
local x = 5
print(-x, - -x, -x + 1, 3 - -x)
print(-9223372036854775807 - 1 == math.mininteger)
