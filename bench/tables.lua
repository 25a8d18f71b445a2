-- The loops of crates/table_speed in Lua: appends, reads by index, a walk, removals from the end, reads by one text key, small tables.
local n = tonumber(arg[1])
local list, named = {}, { name = true }

local function timed(what, loop)
  local start = os.clock()
  local answer = loop()
  io.stderr:write(string.format("%s %d ms\n", what, math.floor((os.clock() - start) * 1000)))
  return answer
end

timed("append", function() for i = 1, n do list[i] = i end end)
local sum = timed("read", function() local s = 0 for i = 1, n do s = s + list[i] end return s end)
local met = timed("walk", function()
  local count, key = 0, next(list)
  while key do count = count + 1 key = next(list, key) end
  return count
end)
timed("remove", function() for _ = 1, n do list[#list] = nil end end)
local found = timed("text", function()
  local count = 0
  for _ = 1, n do if named.name then count = count + 1 end end
  return count
end)
local named_tables, listed_tables = {}, {}
timed("named", function() for i = 1, n do named_tables[i] = {x = 1, y = 2} end end)
timed("listed", function() for i = 1, n do listed_tables[i] = {1, 2} end end)
print(string.format("sum %d, met %d, left %d, found %d", sum, met, #list, found))
