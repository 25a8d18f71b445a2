-- Protected calls, of which one in ten raises an error.
local function risky(i)
  if i % 10 == 0 then error(i) end
  return i + 1
end
local good, bad = 0, 0
for i = 1, 4000000 do
  local ok, v = pcall(risky, i)
  if ok then good = good + v else bad = bad + v end
end
print(good, bad)
