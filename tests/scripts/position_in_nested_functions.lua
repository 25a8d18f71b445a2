-- A fault has the line where it is raised, not that of its callers.
local function c()
  error("here") -- line 3
end
local function b()
  return (c())
end
local function a()
  local x = b()
  return x
end
print(pcall(a))
print(pcall(function() local ok, e = pcall(a) error(e, 0) end))
print(pcall(function() local ok, e = pcall(a) error(e) end))
