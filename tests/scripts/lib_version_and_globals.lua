-- The names that are always there.
print(_VERSION, _G._VERSION == _VERSION, _G.print == print, _G.math == math)
for _, name in ipairs({"assert", "error", "getmetatable", "ipairs", "next", "pairs", "pcall", "print", "rawequal", "rawget",
  "rawlen", "rawset", "require", "select", "setmetatable", "tonumber", "tostring", "type", "xpcall"}) do
  if type(_G[name]) ~= "function" then print("missing", name) end
end
for _, name in ipairs({"abs", "floor", "max", "min", "tointeger", "type", "ult"}) do
  if type(math[name]) ~= "function" then print("missing", name) end
end
print(type(math.maxinteger), type(math.mininteger))
