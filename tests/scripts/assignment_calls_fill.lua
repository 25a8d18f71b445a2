-- The last call fills the targets, a call before it gives one value.
local function three() return 1, 2, 3 end
local a, b, c, d
a, b, c, d = three(), three()
print(a, b, c, d)
a, b, c, d = three(), 10
print(a, b, c, d)
a, b, c, d = 0, (three())
print(a, b, c, d)
a, b = three()
print(a, b)
local function none() end
a, b = none(), none()
print(a, b)
