-- Tables nested a hundred thousand deep are nothing special.
local t = {}
local top = t
for i = 1, 100000 do t.next = {depth = i} t = t.next end
local n, at = 0, top
while at.next do at = at.next n = n + 1 end
print(n, at.depth)
