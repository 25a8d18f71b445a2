-- `break` ends the innermost loop round it, of each kind.
for i = 1, 2 do
  while true do
    repeat
      for k in pairs({1, 2, 3}) do
        if k == 2 then break end
        print("pairs", k)
      end
      break
    until false
    print("repeat left")
    break
  end
  print("while left", i)
end
