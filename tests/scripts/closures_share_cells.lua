-- Functions made in one scope share its locals.
local function counter()
  local n = 0
  return function() n = n + 1 return n end, function() return n end, function(v) n = v end
end
local up, get, set = counter()
local up2, get2 = counter()
print(up(), up(), get(), up2(), get2())
set(100)
print(up(), get(), get2())
