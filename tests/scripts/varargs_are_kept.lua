-- `...` stays what it was, whatever its parameters become.
local function f(a, ...)
  a = "changed"
  local x = ...
  x = "changed too"
  return a, ...
end
print(f(1, 2, 3))
local function g(...)
  local function inner(...) return ... end
  return inner("inner"), ...
end
print(g(1, 2))
