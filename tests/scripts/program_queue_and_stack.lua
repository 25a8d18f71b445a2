-- A stack and a queue by closures.
local function stack()
  local items, n = {}, 0
  return function(v) n = n + 1 items[n] = v end,
    function() if n == 0 then return nil end local v = items[n] items[n] = nil n = n - 1 return v end
end
local function queue()
  local items, first, last = {}, 1, 0
  return function(v) last = last + 1 items[last] = v end,
    function() if first > last then return nil end local v = items[first] items[first] = nil first = first + 1 return v end
end
local push, pop = stack()
local put, take = queue()
for i = 1, 5 do push(i) put(i * i) end
print(pop(), pop(), take(), take())
push("new") put("new")
for i = 1, 5 do print(pop(), take()) end
