-- Each turn of each kind of loop has fresh locals.
local fs = {}
for i = 1, 3 do fs[#fs + 1] = function() i = i + 10 return i end end
for _, v in ipairs({"a", "b"}) do fs[#fs + 1] = function() v = v .. "!" return v end end
local n = 0
while n < 2 do
  n = n + 1
  local mine = n * 100
  fs[#fs + 1] = function() mine = mine + 1 return mine end
end
repeat
  local mine = n * 1000
  fs[#fs + 1] = function() mine = mine + 1 return mine end
  n = n - 1
until mine == 1000
for i, f in ipairs(fs) do print(i, f(), f()) end
