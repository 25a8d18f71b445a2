-- `and` and `or` give one of their operands.
print(1 and 2, nil and 2, false and 2, 1 and nil, 1 and false)
print(1 or 2, nil or 2, false or 2, nil or false, false or nil)
print(1 and 2 or 3, nil and 2 or 3, 1 and nil or 3)
print(nil or false and 1, (nil or false) and 1)
print(not 1 == 2, not (1 == 2))
print(1 == 1 and "yes" or "no", 1 == 2 and "yes" or "no")
