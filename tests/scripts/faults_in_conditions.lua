-- Differs from Lua in the text, which names no variable: conditions and parts of loops have the lines of their operators.
local n
print(pcall(function()
  while
    n.x do end
end))
print(pcall(function()
  repeat local x = 1 until
    x < n
end))
print(pcall(function()
  if nil then
  elseif #n then end
end))
print(pcall(function()
  for i = 1,
    n + 1 do end
end))
print(pcall(function()
  for k in
    pairs(n) do end
end))
print(pcall(function()
  return 1,
    -n
end))
