-- The length of lists without holes, filled and emptied in order.
local t = {}
for i = 1, 20 do t[i] = i if #t ~= i then print("wrong", i, #t) end end
print(#t)
t[#t + 1] = "more"
print(#t, t[21])
for i = 21, 11, -1 do t[i] = nil if #t ~= i - 1 then print("wrong", i, #t) end end
print(#t)
while #t > 0 do t[#t] = nil end
print(#t, next(t))
print(#{}, #{1}, #{nil}, #{x = 1}, #{[1] = 1, [2] = 2})
