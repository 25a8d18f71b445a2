-- After a jump back the names mean what they meant there.
local x, n = "outer", 0
do
  ::top::
  print(x)
  local x = "inner " .. n
  print(x)
  n = n + 1
  if n < 3 then goto top end
end
print(x)
