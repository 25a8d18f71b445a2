-- A string that reads as an integer counts as that integer.
print("10" + 1, 1 + "10", "3" - "4", "6" * "7", "7" // "2", "-7" % "3", -"5", - "-5")
print(" 12 " + 0, "\t-3\n" + 0, "+4" + 0, "0x10" + 0, "0XfF" + 0, "-0x10" + 0, "007" + 0)
print("0xffffffffffffffff" + 0, "-9223372036854775808" + 0, "9223372036854775807" + 1 == math.mininteger)
print(type("1" + 1), "1" == 1, "10" + "10" .. "")
