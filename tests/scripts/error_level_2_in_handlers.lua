-- Differs from Lua, which gives the operator's line: a handler is called by no call expression, so level 2 gives no position.
local mt = {}
for _, e in ipairs({"__add", "__index", "__newindex", "__lt", "__concat", "__len", "__unm", "__eq"}) do
  mt[e] = function() error(e, 2) end
end
local a, b = setmetatable({}, mt), setmetatable({}, mt)
print(pcall(function() return a + 1 end))
print(pcall(function() return a.x end))
print(pcall(function() a.x = 1 end))
print(pcall(function() return a < b end))
print(pcall(function() return a .. b end))
print(pcall(function() return #a end))
print(pcall(function() return -a end))
print(pcall(function() return a == b end))
