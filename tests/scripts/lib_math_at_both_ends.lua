-- The functions of math at the least and the greatest integer, and next to them.
local ends = {math.mininteger, math.mininteger + 1, -1, 0, 1, math.maxinteger - 1, math.maxinteger}
for i, a in ipairs(ends) do
  print(a, math.abs(a), math.floor(a), math.tointeger(a), math.type(a), math.max(a), math.min(a))
  for _, b in ipairs(ends) do
    print(math.max(a, b), math.min(a, b), math.ult(a, b), math.max(b, a, 0), math.min(b, a, 0))
  end
end
print(math.abs(math.abs(math.mininteger)) == math.mininteger, math.maxinteger - math.mininteger, math.maxinteger // -1, math.mininteger // -1)
