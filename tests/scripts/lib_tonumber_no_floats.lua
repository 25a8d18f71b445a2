-- Differs from Lua, where these are floats: they are no integers.
print(tonumber("1.0"), tonumber("1e1"), tonumber(".5"), tonumber("0x1p1"), tonumber("0x.1"), tonumber("1."))
print(tonumber("9223372036854775808"), tonumber("-9223372036854775809"), tonumber("100000000000000000000"))
