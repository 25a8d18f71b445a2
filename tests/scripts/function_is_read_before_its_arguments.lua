-- The function that is called is the one before its arguments were evaluated.
local function one(x) return "one", x end
local function two(x) return "two", x end
f = one
print(f((function() f = two return 1 end)()))
print(f(2))
local t = {f = one}
print(t.f((function() t.f = two return 3 end)()))
print(t.f(4))
print(t:f((function() t.f = one return 5 end)()) == "two", t.f(6))
