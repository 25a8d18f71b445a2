-- Differs from Lua, where a comparison has the line of its second operand: it has the line of its operator.
local function at(f) local ok, e = pcall(f) print(e) end
at(function() return
  1
  < -- this line
  {} end)
at(function() return
  "a"
  >= -- this line

  1 end)
