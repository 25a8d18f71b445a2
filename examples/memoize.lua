-- Answers that are worked out once: tables that ask a function for what they don't have, and keep it.
-- Shows: `__index` as a function, a table of tables that fill themselves, closures, and numbers of 64 bits.

local function memo(f)
  local t
  t = setmetatable({}, {__index = function(_, n)
    local value = f(n, t)
    t[n] = value
    return value
  end})
  return t
end

-- ---- Fibonacci numbers: each from the two before it

local calls = 0
local fib = memo(function(n, fib)
  calls = calls + 1
  if n < 2 then return n end
  return fib[n - 1] + fib[n - 2]
end)
print("fib[80] is " .. fib[80] .. ", after " .. calls .. " calls")
print("fib[90] is " .. fib[90] .. ", after " .. calls .. " calls")
print("fib[85] is " .. fib[85] .. ", after " .. calls .. " calls")

-- ---- Pascal's triangle: choose[n][k] is in how many ways k of n things can be chosen

local choose
choose = memo(function(n)
  return memo(function(k)
    if k == 0 or k == n then return 1 end
    return choose[n - 1][k - 1] + choose[n - 1][k]
  end)
end)
for n = 0, 6 do
  local line = ""
  for k = 0, n do line = line .. " " .. choose[n][k] end
  print(line)
end
print("25 of 50 in " .. choose[50][25] .. " ways")
