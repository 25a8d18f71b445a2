-- Fields of objects, and methods that are found through a metatable.
local Point = {}
Point.__index = Point
function Point.new(x, y) return setmetatable({x = x, y = y}, Point) end
function Point:move(dx, dy)
  self.x = self.x + dx
  self.y = self.y + dy
end
function Point:size() return self.x * self.x + self.y * self.y end
local points = {}
for i = 1, 100 do points[i] = Point.new(i, -i) end
local s = 0
for turn = 1, 45000 do
  for i = 1, 100 do
    local p = points[i]
    p:move(1, -1)
    if turn % 100 == 0 then s = s + p:size() % 1000 end
  end
end
print(s, points[1].x, points[100].y)
