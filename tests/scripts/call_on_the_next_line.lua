-- An opening parenthesis on a new line goes on with the call.
local function f(x) print("f", x) return function(y) print("g", y) end end
f
(1)
(2)
f(3);
(f)(4)
