-- Differs from Lua in the text, which names no variable or field.
local n, t = nil, {}
print(pcall(function() n() end))
print(pcall(function() nosuch() end))
print(pcall(function() t.f() end))
print(pcall(function() t:m() end))
print(pcall(function() (5)() end))
print(pcall(function() ("text")() end))
print(pcall(function() (true)() end))
print(pcall(function() t() end))
print(pcall(function() ({})() end))
print(pcall(nil))
print(pcall(5))
print(pcall({}))
