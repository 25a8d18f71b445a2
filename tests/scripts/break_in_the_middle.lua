-- `break` need not be the last statement of its block.
while true do
  do break end
  print("never")
end
for i = 1, 3 do
  if i > 1 then break print("never") end
  print(i)
end
