-- One metatable for many tables: vectors.
local V = {}
V.__index = V
local function vec(x, y) return setmetatable({x = x, y = y}, V) end
V.__add = function(a, b) return vec(a.x + b.x, a.y + b.y) end
V.__sub = function(a, b) return vec(a.x - b.x, a.y - b.y) end
V.__mul = function(a, b)
  if type(a) == "number" then return vec(a * b.x, a * b.y) end
  if type(b) == "number" then return vec(a.x * b, a.y * b) end
  return a.x * b.x + a.y * b.y
end
V.__unm = function(a) return vec(-a.x, -a.y) end
V.__eq = function(a, b) return a.x == b.x and a.y == b.y end
V.__lt = function(a, b) return a * a < b * b end
V.__le = function(a, b) return a * a <= b * b end
V.__len = function() return 2 end
V.__tostring = function(a) return "(" .. a.x .. ", " .. a.y .. ")" end
V.__call = function(a, k) return a[k] end
V.__concat = function(a, b) return tostring(a) .. tostring(b) end
local a, b = vec(1, 2), vec(3, 4)
print(a + b, b - a, a * b, a * 10, 10 * a, -a)
print(a == vec(1, 2), a ~= b, a < b, a <= b, a > b, a >= vec(-1, -2))
print(#a, a "x", b("y"), a .. b, a .. "!", "!" .. b)
