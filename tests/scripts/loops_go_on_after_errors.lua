-- An error in a body that is caught there changes nothing of the loop.
for i = 1, 3 do
  local ok, e = pcall(function() for j = 1, 5 do if j == i then error("at " .. j, 0) end end end)
  print(i, e)
end
for k, v in ipairs({"a", "b"}) do
  local ok, e = pcall(function() for k2, v2 in ipairs({1, 2}) do error(v .. v2, 0) end end)
  print(k, v, e)
end
local n = 0
repeat
  n = n + 1
  local ok, e = pcall(error, n)
until e == 3
print(n)
