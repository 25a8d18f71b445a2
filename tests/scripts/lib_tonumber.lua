-- Integers, and strings that read as one.
print(tonumber(5), tonumber(-5), tonumber("5"), tonumber("-5"), tonumber("+5"), tonumber("  12\n"), tonumber("\t0x1F "))
print(tonumber("9223372036854775807"), tonumber("-9223372036854775808"))
print(tonumber("0xffffffffffffffff"), tonumber("0x10000000000000001"), tonumber("-0x1"), tonumber("-0xffffffffffffffff"))
print(tonumber(""), tonumber(" "), tonumber("x"), tonumber("1 2"), tonumber("0x"), tonumber("- 1"), tonumber("1x"), tonumber("--1"))
print(tonumber(nil), tonumber(true), tonumber({}), tonumber(print))
print(tonumber("00012"), tonumber("1", nil), tonumber("\0"), tonumber("1\0"))
print(type(tonumber("7")), tonumber("7") == 7)
