-- A call as a statement drops its values.
local n = 0
local function f(...) n = n + select("#", ...) return 1, 2, 3 end
f(1)
f(1, 2)
f "text"
f {1}
f [[long]];
(f)(1)
local t = {f = f}
t.f(1)
t:f(1)
t["f"](1)
print(n)
