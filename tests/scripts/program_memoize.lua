-- Answers are kept by a metatable.
local calls = 0
local fib = setmetatable({[0] = 0, 1}, {__index = function(t, n)
  calls = calls + 1
  local v = t[n - 1] + t[n - 2]
  t[n] = v
  return v
end})
print(fib[10], fib[50], fib[90], calls)
print(fib[90], calls)
