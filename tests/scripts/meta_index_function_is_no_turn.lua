-- Differs from Lua in the limit: a handler that is called at the end of a chain is none of its 100 turns.
local function chain(n)
  local t = setmetatable({}, {__index = function(o, k) return "called for " .. k end})
  for i = 2, n do t = setmetatable({}, {__index = t}) end
  return t
end
print(chain(1).x, chain(100).x)
print(pcall(function() return chain(101).x end))
