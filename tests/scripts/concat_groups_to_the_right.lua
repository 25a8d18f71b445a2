-- Differs from Lua 5.4.4, where a second handler in one chain of `..` gives a wrong value. Handlers show how `..` groups.
local mt = {}
mt.__concat = function(a, b)
  local x = type(a) == "table" and a.s or a
  local y = type(b) == "table" and b.s or b
  return setmetatable({s = "(" .. x .. y .. ")"}, mt)
end
local function v(s) return setmetatable({s = s}, mt) end
print((v"a" .. v"b" .. v"c" .. v"d").s)
print((v"a" .. "b" .. "c").s)
print(("a" .. "b" .. v"c").s)
print((1 .. v"x" .. 2).s)
