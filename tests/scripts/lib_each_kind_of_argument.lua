-- Which functions take which kinds of values, missing, nil and too many; what they say of a bad one is not shown.
local function f() end
local kinds = {{"nil", nil}, {"false", false}, {"true", true}, {"integer", 7}, {"text", "word"}, {"digits", "12"}, {"table", {}}, {"function", f},
  {"library function", print}}
local one = {rawlen = rawlen, type = type, tonumber = tonumber, getmetatable = getmetatable, abs = math.abs, floor = math.floor, math_type = math.type}
local names = {"rawlen", "type", "tonumber", "getmetatable", "abs", "floor", "math_type"}
for _, name in ipairs(names) do
  local call = one[name]
  print(name, (pcall(call)))
  for _, kind in ipairs(kinds) do
    print(name, kind[1], (pcall(call, kind[2])))
  end
  print(name, "too many", (pcall(call, 7, nil, nil, nil)), (pcall(call, {}, nil, nil, nil)))
end
local two = {rawequal = rawequal, rawget = rawget, ult = math.ult, setmetatable = setmetatable, select = select}
for _, name in ipairs({"rawequal", "rawget", "ult", "setmetatable", "select"}) do
  local call = two[name]
  print(name, (pcall(call)))
  for _, first in ipairs(kinds) do
    print(name, first[1], (pcall(call, first[2])))
    for _, second in ipairs(kinds) do
      print(name, first[1], second[1], (pcall(call, first[2], second[2])), (pcall(call, first[2], second[2], nil, 1)))
    end
  end
end
for _, first in ipairs(kinds) do
  for _, second in ipairs(kinds) do
    local a, b = first[2], second[2]
    print("rawset", first[1], second[1], (pcall(rawset, a, b)), (pcall(rawset, a, b, nil)), (pcall(rawset, a, b, 1, 2)))
    print("next", first[1], second[1], (pcall(next, first[2], second[2])))
  end
  print("next", first[1], (pcall(next, first[2])))
  print("tonumber with base 10", first[1], (pcall(tonumber, first[2], 10)), (pcall(tonumber, "10", first[2])))
end
print((pcall(rawset)), (pcall(rawset, {})), (pcall(next)), (pcall(tonumber)))
print((pcall(tonumber, "1", 1)), (pcall(tonumber, "1", 37)), (pcall(tonumber, "1", 2)))
