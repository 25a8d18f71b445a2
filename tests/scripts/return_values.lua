-- None, one, several, a call's and all of `...`.
local function none() return end
local function one() return 1 end
local function many() return 1, nil, 3, nil end
local function call() return many() end
local function cut() return (many()) end
local function dots(...) return ... end
print(none())
print((none()))
print(one())
print(many())
print(call())
print(cut())
print(dots(1, nil, nil))
print(select("#", none()), select("#", many()), select("#", cut()), select("#", dots(nil, nil)))
