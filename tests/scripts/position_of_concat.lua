-- Differs from Lua, which has one line for a chain of `..`: each `..` has its own line.
local function at(f) local ok, e = pcall(f) print(e) end
at(function()
  return "a"
    .. "b"
    .. {}
    .. "c"
end)
at(function()
  return {}
    .. "b"
    .. "c"
end)
