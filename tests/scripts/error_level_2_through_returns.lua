-- Differs from Lua, where `return f()` leaves no caller: a call after `return` is a call like others.
local function raise() error("message", 2) end
local function call()
  return raise() -- line 4
end
print(pcall(call))
print(pcall(function()
  return raise()
end))
