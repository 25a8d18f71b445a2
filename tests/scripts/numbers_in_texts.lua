-- Integers become texts in decimal, however they were written.
print(0x7f .. "", 00012 .. "", -0 .. "", 1 - 1 .. "", - 5 .. "")
print("" .. 0xffffffffffffffff, "" .. 9223372036854775807, "" .. (-9223372036854775807 - 1))
