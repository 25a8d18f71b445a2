-- Differs from Lua, which follows 2000 tables: a chain has at most 100 of them, the first and the last counted.
local function chain(n)
  local t = {found = "end"}
  for i = 2, n do t = setmetatable({}, {__index = t}) end
  return t
end
print(chain(1).found, chain(2).found, chain(99).found, chain(100).found)
print(pcall(function() return chain(101).found end))
print(chain(100).missing)
print(pcall(function() return chain(101).missing end))
local loop = {}
setmetatable(loop, {__index = loop})
print(pcall(function() return loop.x end))
loop.x = 1
print(loop.x)
