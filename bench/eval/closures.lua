-- Functions that are made and called, with cells that they share.
local function counter(start)
  local n = start
  return function(d) n = n + d return n end, function() return n end
end
local s = 0
for i = 1, 600000 do
  local add, get = counter(i)
  add(1)
  add(2)
  s = s + get()
end
local add, get = counter(0)
for i = 1, 15000000 do add(i) end
print(s, get())
