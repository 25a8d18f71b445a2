-- Differs from Lua, where an index has the line of its last part: an index has the line of its `.` or `[`.
local function at(f) local ok, e = pcall(f) print(e) end
local t = {}
at(function()
  return t
    .a
    .b
    .c
end)
at(function()
  return t
    [
      1
    ]
    [
      2
    ]
end)
at(function()
  t
    .a
    .b = 1
end)
at(function()
  t.a = 1; t
    .x.
    y = {
      1
    }
end)
at(function()
  function
    t
    .x
    .y
    .z() end
end)
at(function()
  function t
    .x
    :m() end
end)
