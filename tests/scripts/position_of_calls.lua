-- Differs from Lua, where a call has the line on which its expression begins: a call has the line of its opening parenthesis, brace or text.
local function at(f) local ok, e = pcall(f) print(e) end
local t = {}
at(function()
  t
  .f
  (
    1,
    2
  )
end)
at(function()
  t.g {
    1
  }
end)
at(function()
  t.g
    "text"
end)
at(function()
  t
    :m
    (1)
end)
at(function()
  (nil)
    [1]
    :m(
    )
end)
at(function()
  error(
    "raised"
  )
end)
at(function()
  error
    (
    "raised"
  )
end)
at(function()
  setmetatable(
    1,
    2
  )
end)
