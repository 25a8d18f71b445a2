-- Which operator binds more.
print(1 + 2 * 3, (1 + 2) * 3, 10 - 2 - 3, 2 * 3 % 4)
print(-2 * 3, - -2, -2 - -3, not not nil)
print(1 .. 2 + 3, "a" .. 1 + 2 .. "b")
print(1 < 2 == true, 1 + 1 == 2 and 2 + 2 == 4)
print(1 << 2 + 1, 1 | 2 ~ 3 & 1, ~0 & 0xF, 6 & 3 == 2 and "shown" or 0)
print(2 + 3 << 1, (1 .. 2) + 0 << 1, 1 .. 2 + 3 .. 4 == "154")
print("a" .. "b" == "ab", not "a" == "b", #"abc" + 1, -3 % 5, (-3) % 5, -(3 % 5))
print(5 // 2 * 2, 5 * 2 // 3, 7 % 4 * 2, ~5 + 1, - ~5)
