-- `__index` as a function gets the object and the key, and gives its first value.
local t
t = setmetatable({here = false}, {__index = function(o, k)
  print("asked", o == t, k)
  return k, "dropped"
end})
print(t.here)
print(t.x, t[5], t[nil], t[true])
print((t.a))
local u = setmetatable({}, {__index = function() end})
print(u.x, #u)
