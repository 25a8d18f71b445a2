-- Missing variables are nil, and further values are dropped.
local function it(s, c) if c == nil then return 1 elseif c == 1 then return 2, "b", "c" end end
for a, b, c, d in it, nil, nil do print(a, b, c, d) end
for a in it do print(a) end
