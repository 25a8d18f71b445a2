-- Cells that are changed by the function and by its maker in turn.
local n = 0
local function up() n = n + 1 return n end
for i = 1, 3 do
  n = n * 10
  print(up(), n)
end
local function outer()
  local x = 1
  local function inner() x = x + 1 return x end
  x = x * 5
  local y = inner()
  x = x * 2
  return x, y, inner(), x
end
print(outer())
