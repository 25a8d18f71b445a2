-- Setting to nil removes a field, setting again brings it back.
local t = {x = 1}
t.x = nil
print(t.x, next(t))
t.y = nil
print(next(t))
t.x = 2
print(t.x, next(t))
t.x = false
print(t.x, next(t))
