-- The method is looked up before the arguments are evaluated, and called after them.
local function say(x) print("argument", x) return x end
print((pcall(function() return (5):m(say(1)) end)))
print((pcall(function() return ({}):m(say(2)) end)))
local o = {m = function(self, x) return "old", x end}
print(o:m((function() o.m = nil return 3 end)()))
