-- `self` comes before the parameters and before `...`.
local t = {name = "t"}
function t:m(a, ...) return self.name, a, select("#", ...), ... end
function t:none() return self == t end
function t.with(self, ...) return self.name, ... end
print(t:m())
print(t:m(1))
print(t:m(1, 2, nil))
print(t:none(), t:with(5))
print(t.m({name = "other"}, "a"))
