-- Differs from Lua, which shows addresses: tables show their numbers, which count from the globals' 0.
local function number(t)
  for n = 0, 1000 do if tostring(t) == "table: " .. n then return n end end
end
local a = {}
local b = {}
local c = {{}}
print(_G, number(_G))
print(number(b) - number(a), number(c) - number(a), number(c[1]) - number(a))
print(tostring(a) == tostring(a), tostring(a) == tostring(b))
