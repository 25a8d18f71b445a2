-- No turn, some turns, `break`.
while false do print("never") end
while nil do print("never") end
local n = 0
while n < 3 do
  n = n + 1
  print(n)
end
while true do
  n = n + 10
  if n > 30 then break end
end
print(n)
