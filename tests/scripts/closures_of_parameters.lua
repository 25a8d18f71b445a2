-- A parameter that is captured is a cell of its call.
local function make(x, ...)
  local rest = ...
  return function(d) x = x + d return x, rest end
end
local a, b = make(1, "a"), make(10, "b")
print(a(1))
print(a(1))
print(b(5))
print(a(0))
