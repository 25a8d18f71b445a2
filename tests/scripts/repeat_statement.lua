-- One turn at least, and the condition sees the locals of the body.
local n = 0
repeat
  local done = n >= 2
  n = n + 1
  print(n, done)
until done
repeat local x = 1 until x
repeat
  n = n + 1
  if n == 5 then break end
until false
print(n)
