-- The value of a local can't see the local itself.
x = "global"
local x = x
print(x)
local f = function() return f end
print(f())
local function g() return g end
print(g() == g)
