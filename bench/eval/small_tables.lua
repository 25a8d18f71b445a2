-- A million small tables that stay, read twice.
local list = {}
for i = 1, 1000000 do
  list[i] = {x = i, y = -i, 1, 2}
end
local s = 0
for turn = 1, 2 do
  for i = 1, #list do
    local t = list[i]
    s = s + t.x + t.y + t[1] * t[2]
  end
end
print(#list, s)
