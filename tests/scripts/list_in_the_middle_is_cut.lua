-- A call or `...` gives all its values only at the end of a list.
local function three() return 1, 2, 3 end
local function f(...)
  print(three(), three())
  print(three(), "end")
  print(..., ...)
  print(..., "end")
  local t = {three(), ..., three()}
  print(#t, t[1], t[2], t[3], t[4], t[5])
  return ..., three()
end
print(f("a", "b"))
print((three()), three())
