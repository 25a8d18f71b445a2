-- Differs from Lua in the text, and has the line of the opening brace: a nil key of a constructor.
local function at(f) local ok, e = pcall(f) print(e) end
at(function()
  return {
    1,
    [nil] = 2,
  }
end)
at(function()
  return
  {
    {
      [nil] = 1 },
  }
end)
