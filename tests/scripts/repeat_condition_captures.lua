-- A function in the condition captures the local of its turn.
local fs, n = {}, 0
repeat
  n = n + 1
  local mine = n * 10
  fs[n] = function() mine = mine + 1 return mine end
until (function() return mine > 25 end)()
print(#fs, fs[1](), fs[1](), fs[2](), fs[3]())
