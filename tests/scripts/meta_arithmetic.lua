-- Each arithmetic handler, with both operand orders.
local mt = {}
for _, e in ipairs({"add", "sub", "mul", "idiv", "mod"}) do
  mt["__" .. e] = function(a, b)
    return e .. "(" .. (type(a) == "table" and "t" or a) .. "," .. (type(b) == "table" and "t" or b) .. ")"
  end
end
local t = setmetatable({}, mt)
print(t + 1, 1 + t, t + t)
print(t - 1, 1 - t, t - t)
print(t * 1, 1 * t, t * t)
print(t // 1, 1 // t, t // t, t // 0)
print(t % 1, 1 % t, t % t, t % 0)
