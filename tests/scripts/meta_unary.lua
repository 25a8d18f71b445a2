-- The handlers of unary operators get the operand twice.
local t
local mt = {
  __unm = function(a, b) return "unm", a == t, b == t end,
  __bnot = function(a, b) print("twice", a == t, b == t) return "bnot" end,
  __len = function(a) return "len of " .. (a == t and "t" or "other") end,
}
mt.__unm = function(a, b) print("twice", a == t, b == t) return "unm" end
t = setmetatable({1, 2, 3}, mt)
print(-t)
print(~t)
print(#t, rawlen(t))
print(not t)
