-- A declaration that is passed again makes a fresh local and a fresh cell.
local fs = {}
local i = 1
::again::
local x
if x then print("kept") end
x = i * 10
fs[i] = function() x = x + 1 return x end
i = i + 1
if i <= 3 then goto again end
print(fs[1](), fs[1](), fs[2](), fs[3]())
