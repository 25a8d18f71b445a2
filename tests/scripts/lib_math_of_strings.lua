-- Differs from Lua in kinds: an argument that reads as an integer becomes that integer, but `tointeger` takes no string.
print(math.abs("-5"), math.floor(" 7 "), math.max("10", 9), math.min("10", "9"), math.ult("1", "0xff"))
print(math.type(math.max("10", 9)), math.type(math.abs("-5")), math.type(math.floor("7")))
print(math.tointeger("5"), math.type("5"))
