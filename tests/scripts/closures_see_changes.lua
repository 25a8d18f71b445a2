-- A captured local is shared, not copied.
local x = 1
local function f() return x end
x = 2
print(f())
local function g() x = x + 1 end
g()
print(x, f())
do
  local y = 10
  function h() y = y + 1 return y end
  y = 20
end
print(h(), h())
