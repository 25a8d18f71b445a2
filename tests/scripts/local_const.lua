-- A constant local is read like any other, also by an inner function.
local a <const>, b, c <const> = 1, 2, "three"
b = b + a
local function f() return a + b end
print(a, b, c, f())
for i = 1, 2 do
  local d <const> = i * 10
  print(d)
end
