-- `__newindex` as a function gets object, key and value for absent keys alone.
local t = setmetatable({old = 1}, {__newindex = function(o, k, v)
  print("set", k, v)
  if k ~= nil then rawset(o, k, v) end
end})
t.old = 2
t.new = 3
t.new = 4
t.gone = nil
print(t.old, t.new, t.gone)
t.new = nil
t.new = 5
print(t.new)
t[nil] = 6
