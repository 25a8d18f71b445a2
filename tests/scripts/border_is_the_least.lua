-- Differs from Lua, which may give any border: the length of a table with holes is the first border.
print(#{1, 2, nil, 4}, #{nil, nil, 3}, #{1, nil, 3}, #{nil, 2})
local t = {1, 2, 3, 4, 5}
t[2] = nil
print(#t)
t[2] = "back"
print(#t)
t[5] = nil
t[7] = 7
print(#t)
t[6] = 6
print(#t)
t[5] = 5
print(#t)
t[1] = nil
print(#t)
local u = {[2] = 2, [3] = 3}
print(#u)
u[1] = 1
print(#u)
u = {}
for i = 10, 2, -1 do u[i] = i end
print(#u)
u[1] = 1
print(#u)
