-- What a handler gives is a value like others, with handlers of its own.
local mt = {}
local function num(n) return setmetatable({n = n}, mt) end
local function value(x) return type(x) == "table" and x.n or x end
mt.__add = function(a, b) return num(value(a) + value(b)) end
mt.__mul = function(a, b) return num(value(a) * value(b)) end
mt.__call = function(self, f) return num(f(self.n)) end
mt.__index = function(self, k) if k == "double" then return self * 2 end end
mt.__eq = function(a, b) return a.n == b.n end
mt.__tostring = function(self) return "num " .. self.n end
print(num(2) + 3 * num(4), (num(1) + 1).double.double, num(5)(function(n) return n * n end) + 1)
print(num(2) + 2 == num(4), num(1).double == num(2), num(3).nothing)
