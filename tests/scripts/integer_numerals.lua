-- Decimal and hexadecimal numerals; hexadecimal ones wrap.
print(0, 7, 007, 9223372036854775807, 00000000000000000000000000012)
print(0x0, 0xA, 0Xff, 0xABCDEF, 0x7fffffffffffffff)
print(0xffffffffffffffff, 0x8000000000000000, 0x10000000000000000, 0x1ffffffffffffffff, 0x123456789abcdef01)
print(-9223372036854775807, 0x10 + 0x10)
