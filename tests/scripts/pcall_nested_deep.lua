-- Differs from Lua in the limit: `pcall` inside `pcall` down to the limit, where the innermost catches the overflow.
local function nest(n)
  if n == 0 then return "bottom" end
  local ok, v = pcall(nest, n - 1)
  return v
end
print(nest(10), nest(100), nest(150))
print(nest(1000))
