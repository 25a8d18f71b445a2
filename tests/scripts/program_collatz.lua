-- The longest chain below a number.
local best, at = 0, 0
local known = {1}
local function length(n)
  local steps, m = 0, n
  while not known[m] do
    if m % 2 == 0 then m = m // 2 else m = 3 * m + 1 end
    steps = steps + 1
  end
  return steps + known[m]
end
for n = 2, 1000 do
  local l = length(n)
  known[n] = l
  if l > best then best, at = l, n end
end
print(at, best)
