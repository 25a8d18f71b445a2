-- Each evaluation of a function expression makes a new function.
local function make() return function() end end
local f = make()
print(f == f, make() == make(), f ~= make())
local t = {[f] = "f"}
print(t[f], t[make()])
