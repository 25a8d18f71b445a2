-- `...` is what it was after calls and errors below.
local function f(...)
  local before = select("#", ...)
  local ok, e = pcall(function(...) local t = {...} error(#t, 0) end, ..., ...)
  local g = function(...) return select("#", ...) end
  return before, ok, e, g(...), select("#", ...), ...
end
print(f())
print(f(1, nil))
print(f("a", "b", "c"))
