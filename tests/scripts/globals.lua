-- Globals are fields of `_G`.
x = 1
print(x, _G.x, _G["x"])
_G.y = 2
print(y)
y = nil
print(_G.y, rawget(_G, "y"))
print(_G._G == _G, nosuch)
local function f() z = 3 end
f()
print(z)
_G["not a name"] = 4
print(_G["not a name"])
