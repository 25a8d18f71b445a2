-- A table that is called: the handler gets it before the arguments.
local t
t = setmetatable({}, {__call = function(self, ...) return self == t, select("#", ...), ... end})
print(t())
print(t(1, nil, 3))
print((t(1)))
print(t "text")
print(t {1} ~= nil)
local o = {m = t}
print(select("#", o:m(2)), (o.m(2)))
print(pcall(t, "by pcall"))
