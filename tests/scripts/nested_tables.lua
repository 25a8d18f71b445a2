-- Tables in tables, shared and cyclic.
local t = {}
t.self = t
print(t.self.self.self == t)
local a = {v = 1}
local b = {a, a}
b[1].v = 2
print(a.v, b[2].v)
local grid = {}
for y = 1, 3 do grid[y] = {} for x = 1, 3 do grid[y][x] = y * x end end
print(grid[2][3], grid[3][3], #grid, #grid[1])
grid[2][3] = grid[2][3] + grid[1][1]
print(grid[2][3])
