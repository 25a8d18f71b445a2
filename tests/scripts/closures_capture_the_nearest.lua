-- An inner function sees the local that is visible where it stands.
local x = 1
local function f() return x end
local x = 2
local function g() return x end
do
  local x = 3
  function h() return x end
end
x = 20
print(f(), g(), h())
