-- `continue` in each kind of loop.
for i = 1, 4 do
  if i % 2 == 0 then goto continue end
  local x = i
  print("for", x)
  ::continue::
end
local n = 0
while n < 4 do
  n = n + 1
  if n == 2 then goto continue end
  print("while", n)
  ::continue::
end
for _, v in ipairs({1, 2, 3}) do
  if v == 1 then goto continue end
  print("in", v)
  ::continue::
end
repeat
  n = n - 1
  if n == 1 then goto continue end
  print("repeat", n)
  ::continue::
until n == 0
