-- Only nil ends the loop: false is a value like others.
local turns = 0
for v in function() turns = turns + 1 if turns < 3 then return false end end do print(v, turns) end
print(turns)
