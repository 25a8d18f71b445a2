-- A proxy counts what is read and written.
local function proxy(t)
  local reads, writes = 0, 0
  return setmetatable({}, {
    __index = function(_, k) reads = reads + 1 return t[k] end,
    __newindex = function(_, k, v) writes = writes + 1 t[k] = v end,
    __len = function() return #t end,
    __call = function() return reads, writes end,
  })
end
local p = proxy({1, 2, 3})
p[4] = p[1] + p[2] + p[3]
p.x = "x"
print(#p, p[4], p.x, rawget(p, 4))
print(p())
