-- Levels 0 to 2 through one, two and three functions, with strings, tables and other values.
local function one(value, level)
  error(value, level) -- line 3
end
local function two(value, level)
  one(value, level) -- line 6
  return "never"
end
local function three(value, level)
  two(value, level) -- line 10
  return "never"
end
local box = setmetatable({}, {__tostring = function() return "a box" end})
for _, level in ipairs({0, 1, 2}) do
  for _, call in ipairs({one, two, three}) do
    print(level, pcall(call, "message", level))
    local ok, caught = pcall(call, box, level)
    print(level, ok, caught == box, tostring(caught))
    print(level, (select(2, pcall(call, 17, level))), select("#", pcall(call, nil, level)))
    print(level, pcall(function() call("inner", level) return 1 end)) -- line 20
    print(level, select(2, pcall(pcall, call, "nested", level)), select(3, pcall(pcall, call, "nested", level)))
    print(level, xpcall(call, function(e) return tostring(e) .. " handled" end, "message", level))
    print(level, xpcall(call, function(e) return e == box end, box, level))
  end
end
