-- Locals without values are nil, and further values are dropped.
local a
local b, c = 1
local d, e = 2, 3, 4
print(a, b, c, d, e)
local f, g, h = (function() return 5, 6 end)()
print(f, g, h)
