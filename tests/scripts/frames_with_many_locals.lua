-- Each call has its own locals, also where there are many and calls are deep.
local function f(n)
  local a, b, c, d, e, f1, g, h, i, j = n, n + 1, n + 2, n + 3, n + 4, n + 5, n + 6, n + 7, n + 8, n + 9
  local k, l, m, o, p, q, r, s, t, u = n * 2, n * 3, n * 4, n * 5, n * 6, n * 7, n * 8, n * 9, n * 10, n * 11
  local below = 0
  if n > 0 then below = f and 0 or 1 end
  return a + b + c + d + e + f1 + g + h + i + j, k + l + m + o + p + q + r + s + t + u
end
print(f(0))
print(f(100))
local function deep(n)
  local a, b, c, d, e = n, n * 2, n * 3, n * 4, n * 5
  if n == 0 then return 0 end
  local x = deep(n - 1)
  if a ~= n or b ~= n * 2 or c ~= n * 3 or d ~= n * 4 or e ~= n * 5 then print("wrong", n) end
  local y = x + a
  return y
end
print(deep(100))
