-- Differs from Lua in the text, which names no variable or field.
local n, t = nil, {}
print(pcall(function() return n.x end))
print(pcall(function() return n[1] end))
print(pcall(function() return t.a.b end))
print(pcall(function() return (5).x end))
print(pcall(function() return (true)[1] end))
print(pcall(function() return print.x end))
print(pcall(function() return nosuch.x end))
print(pcall(function() n.x = 1 end))
print(pcall(function() t.a.b = 1 end))
print(pcall(function() local x = 5 x.y = 1 end))
print(pcall(function() print.x = 1 end))
print(pcall(function() n:method() end))
