-- The text of an integer and the integer are two keys.
local t = {}
for i = 1, 10 do t[i] = "integer" t["" .. i] = "text" end
print(t[5], t["5"], #t, t[10 .. ""], t["0x5"], t[0x5])
