-- Calls: the Fibonacci number of 32 by two calls each, three times.
local function fib(n)
  if n < 2 then return n end
  return fib(n - 1) + fib(n - 2)
end
for turn = 1, 3 do print(fib(32)) end
