-- Only the integers from 1 on count.
local t = {[0] = "zero", [-1] = "minus", ["1"] = "text", n = 5}
print(#t)
t[1] = "one"
t[3] = "three"
t[math.maxinteger] = "max"
t[math.mininteger] = "min"
t[2] = "two"
print(#t)
