-- Handlers are called while arguments are gathered.
local t = setmetatable({}, {
  __index = function(_, k) local a, b, c = k, k, k return a end,
  __add = function(a, b) return type(a) == "table" and b or a end,
  __call = function(self, ...) return select("#", ...), ... end,
  __len = function() return 7 end,
  __concat = function() return "joined" end,
})
print(1, t.x, 2, t + 3, 4, #t, 5, t .. "", 6, t(7, 8))
print(t(t.a, t.b, t(t.c)))
local u = {t.p, t + 1, #t, t(9)}
print(#u, u[1], u[2], u[3], u[4], u[5])
