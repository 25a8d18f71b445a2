-- A remainder has the sign of the divisor.
print(7 % 3, -7 % 3, 7 % -3, -7 % -3)
print(6 % 3, -6 % 3, 6 % -3, -6 % -3, 0 % 5, 0 % -5)
print(1 % 3, -1 % 3, 1 % -3, -1 % -3)
print(math.mininteger % -1, math.mininteger % 1, math.maxinteger % -1, math.mininteger % 10, math.maxinteger % math.mininteger, math.mininteger % math.maxinteger)
for a = -5, 5, 5 do for b = -3, 3, 2 do
  if (a // b) * b + a % b ~= a then print("wrong", a, b) end
end end
