-- Cells live on after an error in the function that made them.
local get, set
local ok = pcall(function(x)
  local y = 10
  get = function() return x, y end
  set = function(a, b) x, y = a, b end
  y = 20
  error("gone")
end, 1)
print(ok, get())
set("x", "y")
print(get())
local fs = {}
for i = 1, 3 do
  pcall(function() local mine = i * 10 fs[i] = function() mine = mine + 1 return i, mine end error("gone") end)
end
print(fs[1]())
print(fs[1]())
print(fs[3]())
