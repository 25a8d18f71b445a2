-- Products of matrices.
local function matrix(n, f) local m = {} for i = 1, n do m[i] = {} for j = 1, n do m[i][j] = f(i, j) end end return m end
local function product(a, b)
  return matrix(#a, function(i, j) local s = 0 for k = 1, #a do s = s + a[i][k] * b[k][j] end return s end)
end
local function power(m, n)
  local r = matrix(#m, function(i, j) return i == j and 1 or 0 end)
  while n > 0 do
    if n & 1 == 1 then r = product(r, m) end
    m = product(m, m)
    n = n >> 1
  end
  return r
end
local f = power({{1, 1}, {1, 0}}, 90)
print(f[1][2], f[1][1], f[1][2] * f[1][2] - f[1][1] * f[2][2])
local m = power(matrix(3, function(i, j) return i * j end), 3)
print(m[1][1], m[2][3], m[3][3])
