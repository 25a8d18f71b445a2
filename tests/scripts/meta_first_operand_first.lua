-- The first operand's handler is taken, and the second's only where the first has none.
local function with(name) return setmetatable({}, {
  __add = function() return name end, __concat = function() return name end,
  __lt = function() return name == "a" end, __le = function() return name == "a" end, __eq = function() return name == "a" end,
  __band = function() return name end,
}) end
local a, b, plain = with("a"), with("b"), setmetatable({}, {})
print(a + b, b + a, plain + a, a + plain, plain + b)
print(a .. b, b .. a, plain .. a, "x" .. b, b .. "x", 1 .. a)
print(a & b, b & a, plain & b, 1 & a)
print(a < b, b < a, plain < b, a < plain, a <= b, b <= a)
print(a > b, b > a, a >= b, b >= a)
print(a == b, b == a, a ~= b, b ~= a, plain == a, plain == b)
