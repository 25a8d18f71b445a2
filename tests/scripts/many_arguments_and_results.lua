-- Lists of some hundred values.
local function sum(...)
  local s = 0
  for i = 1, select("#", ...) do s = s + (select(i, ...)) end
  return s
end
local function upto(n) if n == 0 then return end return n, upto(n - 1) end
print(sum(upto(150)), select("#", upto(150)), (upto(150)))
local t = {upto(150)}
print(#t, t[1], t[150])
local u = {0, upto(100), upto(100)}
print(#u, u[2], u[3], u[102])
local a, b, c = upto(150)
print(a, b, c)
print((select(-1, upto(150))), (select(75, upto(150))))
