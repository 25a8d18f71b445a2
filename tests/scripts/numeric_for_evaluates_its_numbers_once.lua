-- Start, limit and step are evaluated once, in this order.
local function n(name, v) print(name) return v end
for i = n("start", 1), n("limit", 5), n("step", 2) do print(i) end
local limit = 3
for i = 1, limit do limit = 100 print(i, limit) end
