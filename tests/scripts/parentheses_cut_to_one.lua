-- Parentheses keep one value.
local function three() return 1, 2, 3 end
local function none() end
local function f(...) return (...) end
print((three()))
print((none()))
print(f(7, 8), f())
print(select("#", (none())), select("#", none()))
local a, b = (three())
print(a, b)
local t = {(three())}
print(#t)
