-- A block has its own locals.
local x = 1
do
  local x = 2
  y = x
  do x = 3 end
  print(x)
end
print(x, y)
do end
