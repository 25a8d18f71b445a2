-- Digits of a base from 2 to 36.
print(tonumber("101", 2), tonumber("777", 8), tonumber("ff", 16), tonumber("FF", 16), tonumber("zz", 36), tonumber("Zz", 36))
print(tonumber("-101", 2), tonumber("+7", 8), tonumber("  -ff  ", 16), tonumber("\t10\n", 10))
print(tonumber("2", 2), tonumber("8", 8), tonumber("g", 16), tonumber("", 10), tonumber("-", 10), tonumber("1 1", 10), tonumber("0x10", 16))
print(tonumber("10000000000000000", 16), tonumber("ffffffffffffffff", 16), tonumber("18446744073709551617", 10), tonumber("-8000000000000000", 16))
print(tonumber("7", "8"), tonumber("1.0", 10), tonumber("1e1", 16))
