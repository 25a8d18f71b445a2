-- Functions that are given to `pcall` share the cells of their makers.
local n = 0
for i = 1, 5 do
  pcall(function()
    n = n + i
    if i % 2 == 0 then error("even") end
    n = n + 100
  end)
end
print(n)
