-- Two functions of one turn share its local, those of two turns don't.
local gets, sets = {}, {}
for i = 1, 2 do
  local v = i
  gets[i] = function() return v end
  sets[i] = function(x) v = x end
end
sets[1]("changed")
print(gets[1](), gets[2]())
