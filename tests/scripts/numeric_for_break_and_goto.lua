-- A loop is left by `break` from an inner block, and a turn by goto.
for i = 1, 5 do
  if i == 2 then goto continue end
  if i == 4 then do break end end
  print(i)
  ::continue::
end
print("out")
