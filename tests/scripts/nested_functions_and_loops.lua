-- Each kind of loop inside each other kind, with functions between.
local out = 0
for i = 1, 3 do
  for _, v in ipairs({10, 20}) do
    local n = 0
    while n < 2 do
      n = n + 1
      local k = 0
      repeat
        k = k + 1
        out = out + (function(a) for j = 1, a do if j > 2 then return j end end return 0 end)(k) * v + i
      until k >= n
    end
  end
end
print(out)
