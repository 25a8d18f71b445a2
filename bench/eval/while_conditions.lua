-- A while with conditions of several parts: the steps of all numbers to 1 by halving or tripling.
local most, at, all = 0, 0, 0
local n = 1
while n <= 100000 do
  local m, steps = n, 0
  while m ~= 1 and steps < 1000 do
    if m % 2 == 0 then
      m = m // 2
    else
      m = 3 * m + 1
    end
    steps = steps + 1
  end
  if steps > most or (steps == most and n < at) then most, at = steps, n end
  all = all + steps
  n = n + 1
end
print(most, at, all)
