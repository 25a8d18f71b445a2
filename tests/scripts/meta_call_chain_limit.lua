-- Differs from Lua, which has no such limit: a chain of calls has at most 100 turns, the first and the last counted.
local function chain(n)
  local f = function(...) return select("#", ...) end
  for i = 2, n do f = setmetatable({}, {__call = f}) end
  return f
end
print(chain(1)("x"), chain(2)("x"), chain(99)("x"), chain(100)("x"))
print(pcall(function() return chain(101)("x") end))
print(pcall(chain(101), "x"))
local loop = {}
setmetatable(loop, {__call = loop})
print(pcall(function() return loop() end))
