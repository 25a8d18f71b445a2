-- The handler of a call may be a table with a handler itself.
local inner = setmetatable({name = "inner"}, {__call = function(self, ...) return self.name, ... end})
local outer = setmetatable({name = "outer"}, {__call = inner})
local outest = setmetatable({name = "outest"}, {__call = outer})
local a, b, c = outer(1)
print(a, b == outer, c)
local a, b, c, d = outest(2)
print(a, b == outer, c == outest, d)
