-- A metatable of `_G` sees reads and writes of globals.
setmetatable(_G, {
  __index = function(t, k) return "no " .. k end,
  __newindex = function(t, k, v) rawset(t, k, v .. " set") end,
})
print(missing)
a = "value"
print(a)
a = "again"
print(a)
setmetatable(_G, nil)
print(missing)
