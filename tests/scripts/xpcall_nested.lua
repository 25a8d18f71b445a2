-- Handlers of nested calls.
local function h(name) return function(e) return name .. "(" .. tostring(e) .. ")" end end
print(xpcall(function()
  print(xpcall(error, h("inner"), "a"))
  error("b", 0)
end, h("outer")))
print(xpcall(function() local ok, e = xpcall(error, h("inner"), "c") error(e, 0) end, h("outer")))
print(xpcall(pcall, h("none"), error, "d"))
