print(2 + 3 * 4 .. "x", not nil == true, -3 % 5, 7 // -2, 5 & 3 | 8)
