-- `__newindex` is followed through tables to a function.
local last = setmetatable({}, {__newindex = function(o, k, v) rawset(o, k, "by handler: " .. v) end})
local middle = setmetatable({kept = 0}, {__newindex = last})
local t = setmetatable({}, {__newindex = middle})
t.a = "a"
t.kept = "k"
print(rawget(t, "a"), rawget(middle, "a"), last.a)
print(rawget(t, "kept"), middle.kept, last.kept)
