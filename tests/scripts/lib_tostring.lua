-- Texts of values that need no object number.
print(tostring(nil), tostring(true), tostring(false), tostring(0), tostring(-5), tostring("text"), tostring(""))
print(tostring(math.maxinteger), tostring(math.mininteger), tostring(0xff))
print(type(tostring(nil)), type(tostring(1)), #tostring(12345))
print(tostring(1) == "1", tostring("1") == "1", tostring("a", "b"))
