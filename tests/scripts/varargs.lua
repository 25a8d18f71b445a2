-- `...` in calls, constructors, returns and the middle of lists.
local function count(...) return select("#", ...) end
local function f(a, ...)
  local b, c = ...
  return a, b, c, count(...), count(..., 1), count(1, ...), (...)
end
print(f())
print(f(1))
print(f(1, 2))
print(f(1, 2, 3, 4))
print(f(nil, nil, nil))
