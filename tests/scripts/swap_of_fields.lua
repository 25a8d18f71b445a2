-- Fields change places through one assignment.
local t = {1, 2, 3}
t[1], t[3] = t[3], t[1]
print(t[1], t[2], t[3])
local n = {left = {v = 1}, right = {v = 2}}
n.left, n.right = n.right, n.left
n.left.v, n.right.v = n.right.v, n.left.v
print(n.left.v, n.right.v)
