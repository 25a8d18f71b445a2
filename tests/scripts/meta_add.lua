-- `__add` with both operand orders, and with each kind beside a table.
local t = setmetatable({}, {__add = function(a, b)
  return (type(a) == "table" and "t" or tostring(a)) .. "+" .. (type(b) == "table" and "t" or tostring(b)), "dropped"
end})
print(t + 1, 1 + t, t + t)
print(t + "x", "x" + t, t + "10", "10" + t)
print(t + nil, nil + t, t + true, false + t)
print((t + {}), ({} + t))
