-- A local hides the one before it, and its value still sees that one.
local x = 1
local x = x + 1
do
  local x = x * 10
  print(x)
  x = x + 1
  print(x)
end
print(x)
local function f(x) x = x + 100 return x end
print(f(x), x)
