-- The condition is evaluated before each turn, and once more at the end.
local n = 0
local function more() print("test", n) return n < 2 end
while more() do n = n + 1 end
