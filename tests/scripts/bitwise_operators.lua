-- And, or, exclusive or, not.
print(0xF0 & 0x3C, 0xF0 | 0x0C, 0xF0 ~ 0xFF, ~0, ~5, ~ -1)
print(-1 & 0xFF, -1 | 0, -1 ~ 1, math.mininteger | 1, math.maxinteger ~ -1 == math.mininteger)
print(5 & 3, 5 | 3, 5 ~ 3, 5 & 0, 5 | 0, 5 ~ 5)
print(1 | 2 | 4, 7 & 6 & 4, 1 ~ 2 ~ 4, 1 & 2 | 4 ~ 1)
