-- Differs from Lua, which follows 2000 tables: a chain has at most 100 of them, the first and the last counted.
local function chain(n)
  local last = {}
  local t = last
  for i = 2, n do t = setmetatable({}, {__newindex = t}) end
  return t, last
end
local t, last = chain(100)
t.x = "stored"
print(last.x)
t, last = chain(101)
print(pcall(function() t.x = "stored" end))
print(last.x)
local loop = {}
setmetatable(loop, {__newindex = loop})
print(pcall(function() loop.x = 1 end))
