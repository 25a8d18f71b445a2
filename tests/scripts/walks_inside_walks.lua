-- Several walks of one table at once.
local t = {"a", "b", "c"}
local pairs_seen = 0
for i, v in pairs(t) do
  for j, w in ipairs(t) do
    if i < j then print(v .. w) end
    pairs_seen = pairs_seen + 1
  end
end
print(pairs_seen)
