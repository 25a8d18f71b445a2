-- Handlers show how `-` and `*` group.
local mt = {}
local function v(s) return setmetatable({s = s}, mt) end
mt.__sub = function(a, b) return v("(" .. a.s .. "-" .. b.s .. ")") end
mt.__mul = function(a, b) return v("(" .. a.s .. "*" .. b.s .. ")") end
mt.__unm = function(a) return v("-" .. a.s) end
local a, b, c = v"a", v"b", v"c"
print((a - b - c).s, (a - (b - c)).s, (a * b * c).s, (a - b * c).s, (a * b - c).s, (-a - b).s, (-a * -b).s)
