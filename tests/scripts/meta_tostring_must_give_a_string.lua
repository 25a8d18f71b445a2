-- Differs from Lua, where an integer is taken too: `__tostring` must give a string.
for _, v in ipairs({1, true, {}, print}) do
  local t = setmetatable({}, {__tostring = function() return v end})
  print(pcall(tostring, t))
end
local t = setmetatable({}, {__tostring = function() end})
print(pcall(tostring, t))
print(pcall(print, t))
print(pcall(function() return tostring(t) end))
