-- A search tree with a walk in order.
local Tree = {}
Tree.__index = Tree
function Tree.new() return setmetatable({size = 0}, Tree) end
function Tree:add(v)
  local at, side = self, "root"
  while at[side] do
    at = at[side]
    if v == at.v then return false end
    side = v < at.v and "left" or "right"
  end
  at[side] = {v = v}
  self.size = self.size + 1
  return true
end
function Tree:walk(f)
  local function go(n) if n then go(n.left) f(n.v) go(n.right) end end
  go(self.root)
end
local t = Tree.new()
for _, v in ipairs({50, 30, 70, 20, 40, 60, 80, 30}) do t:add(v) end
local text = ""
t:walk(function(v) text = text .. " " .. v end)
print(t.size, text)
print(t:add(55), t:add(50), t.size)
