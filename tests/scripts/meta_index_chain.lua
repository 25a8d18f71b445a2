-- `__index` is followed through tables to a function, which gets the last of them and the key.
local last = {c = "c"}
setmetatable(last, {__index = function(o, k) return "function of " .. (o == last and "last" or "another") .. " for " .. k end})
local middle = setmetatable({b = "b"}, {__index = last})
local t = setmetatable({a = "a"}, {__index = middle})
print(t.a, t.b, t.c, t.d, t[1])
print(rawget(t, "b"), rawget(middle, "c"))
