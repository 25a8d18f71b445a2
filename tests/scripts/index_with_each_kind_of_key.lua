-- Any value may be a key that is read.
local t = {}
print(t[1], t["x"], t[true], t[nil], t[{}], t[print], t[math.mininteger], t[""])
local u = setmetatable({}, {__index = function(_, k) return type(k) end})
print(u[1], u["x"], u[true], u[nil], u[{}], u[print], u[-1], u[""])
