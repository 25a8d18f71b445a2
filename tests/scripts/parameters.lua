-- Missing arguments are nil, further ones are dropped.
local function f(a, b) return a, b end
print(f())
print(f(1))
print(f(1, 2, 3))
print(f(nil, 2))
local function g(a, a1, b)
  a = a or "default"
  return a, b
end
print(g(nil, nil, false))
print(g(1, 2))
