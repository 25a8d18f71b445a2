-- `__concat` where an operand is no string and no integer.
local t = setmetatable({}, {__concat = function(a, b)
  return "<" .. (type(a) == "table" and "t" or tostring(a)) .. "," .. (type(b) == "table" and "t" or tostring(b)) .. ">"
end})
print(t .. "x", "x" .. t, t .. 1, 1 .. t, t .. t)
print(t .. nil, nil .. t, t .. true, {} .. t)
print("a" .. "b" .. t, t .. "a" .. "b", 1 .. 2 .. t)
