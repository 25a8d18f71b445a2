-- The last item gives all its values, others one, and a field that isn't an item one.
local function three() return 1, 2, 3 end
local function none() end
print(#{three()}, #{three(), three()}, #{(three())}, #{three(), x = 1}, #{none()}, #{none(), x = 1})
local t = {x = three()}
print(t.x, #t)
t = {three(), none()}
print(#t, t[1], t[2])
local function f(...)
  local a, b = {...}, {..., "end"}
  return #a, #b, a[3], b[2]
end
print(f(1, 2, 3))
print(f("a"))
