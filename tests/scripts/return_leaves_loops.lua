-- `return` ends the loops and blocks of its function.
local function f()
  for i = 1, 3 do
    while true do
      repeat
        do if i == 2 then return "from", i end end
      until true
      break
    end
  end
end
print(f())
