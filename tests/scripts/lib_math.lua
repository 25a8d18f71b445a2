-- Whole numbers.
print(math.abs(5), math.abs(-5), math.abs(0), math.abs(math.mininteger), math.abs(-math.maxinteger))
print(math.floor(5), math.floor(-5), math.floor(math.maxinteger))
print(math.max(1), math.max(1, 5, 3), math.max(-1, -5), math.max(math.mininteger, math.maxinteger))
print(math.min(1), math.min(1, 5, 3), math.min(-1, -5), math.min(math.mininteger, math.maxinteger))
print(math.maxinteger, math.mininteger, math.maxinteger + 1 == math.mininteger)
print(math.ult(1, 2), math.ult(2, 1), math.ult(1, 1), math.ult(1, -1), math.ult(-1, 1), math.ult(math.maxinteger, math.mininteger), math.ult(-2, -1))
print(math.type(1), math.type("1"), math.type(nil), math.type({}), math.type(true))
print(math.tointeger(5), math.tointeger(-5), math.tointeger({}), math.tointeger(nil), math.tointeger("x"))
