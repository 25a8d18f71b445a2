-- Differs from Lua in the limit: handlers nest too.
local t = setmetatable({}, {__add = function(a, n) if n == 0 then return 0 end return a + (n - 1) end})
local u = setmetatable({}, {__index = function(u, n) if n == 0 then return 0 end return u[n - 1] end})
local c = setmetatable({}, {__call = function(c, n) if n > 0 then c(n - 1) end end})
local s = setmetatable({}, {})
getmetatable(s).__tostring = function(s) if s.n == 0 then return "end" end s.n = s.n - 1 return tostring(s) end
local function most(f)
  local n = 0
  while pcall(f, n + 1) do n = n + 1 end
  return n
end
print(most(function(n) return t + n end), most(function(n) return u[n] end), most(c), most(function(n) s.n = n return tostring(s) end))
