-- A string or a table alone needs no parentheses.
local function f(x) return type(x), #x end
print(f "text")
print(f 'other')
print(f [[long]])
print(f [==[longer]==])
print(f {1, 2, 3})
local t = {f = function(self, x) return x end}
print(t:f "by method")
print((t:f {1})[1])
print(f "a" == "string")
