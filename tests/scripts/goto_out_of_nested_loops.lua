-- A goto leaves several loops at once.
for i = 1, 3 do
  for j = 1, 3 do
    while true do
      if i * j == 4 then goto found end
      break
    end
    print(i, j)
  end
end
::found::
print("found")
