-- The object is evaluated once and comes first.
local made = 0
local function object()
  made = made + 1
  return {name = "o" .. made, get = function(self, ...) return self.name, ... end}
end
print(object():get())
print(object():get(1, 2))
print(made)
local s = {list = {}}
function s:add(v) self.list[#self.list + 1] = v return self end
s:add(1):add(2):add(3)
print(#s.list, s.list[3])
