-- `__pairs` gives three values for a for.
local t = setmetatable({1, 2, 3}, {__pairs = function(o)
  local function step(o, k) k = k + 1 if o[k] then return k, o[k] * 10 end end
  return step, o, 0, "dropped"
end})
for k, v in pairs(t) do print(k, v) end
print(select("#", pairs(t)))
print(select("#", pairs(setmetatable({}, {__pairs = function() end}))))
print(pairs(setmetatable({}, {__pairs = function() return 1, 2 end})))
for i, v in ipairs(t) do print(i, v) end
