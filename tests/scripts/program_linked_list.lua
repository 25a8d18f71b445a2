-- A list of nodes, turned round.
local head
for i = 5, 1, -1 do head = {v = i, next = head} end
local function each(n) return function() if n then local v = n.v n = n.next return v end end end
for v in each(head) do print(v) end
local turned
while head do head, turned, head.next = head.next, head, turned end
for v in each(turned) do print(v) end
