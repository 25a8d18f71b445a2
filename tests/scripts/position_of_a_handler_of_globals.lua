-- Differs from Lua: an index of the globals that can't go on is a fault with the line of the name.
local mt = {__index = 5, __newindex = 6}
setmetatable(_G, mt)
local ok, e = pcall(function()
  return
    nosuch
end)
local ok2, e2 = pcall(function()
  new
    =
    1
end)
mt.__index, mt.__newindex = nil, nil
print(e)
print(e2)
