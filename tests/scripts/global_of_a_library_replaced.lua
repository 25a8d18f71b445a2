-- A library function's global may be replaced, and the function kept.
local p = print
print = function(...) p("mine", ...) end
print(1, 2)
print = p
print("back")
local old = tostring
tostring = function() return "replaced" end
print({} ~= nil, 5)
tostring = old
