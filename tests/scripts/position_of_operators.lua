-- A fault has the line of its operator.
local function at(f) local ok, e = pcall(f) print(e) end
at(function()
  return 1
    +
    {} -- the line before
end)
at(function()
  return 1 + 2
    * {} -- this line
    - 3
end)
at(function() return
  -
  {} -- the line before
end)
at(function() return #
  5 -- the line before
end)
