-- The loop keeps the first result by itself: setting the variable changes no later call.
local t = {"a", "b", "c"}
for i, v in ipairs(t) do
  print(i, v)
  i = 100
end
