-- What was changed before an error stays changed.
local t, n = {}, 0
local ok = pcall(function() n = 1 t.x = 1 g = "g" error("x") n = 2 end)
print(ok, n, t.x, g)
for i = 1, 3 do
  local ok, e = pcall(function() if i == 2 then error("at " .. i, 0) end return i end)
  print(i, ok, e)
end
