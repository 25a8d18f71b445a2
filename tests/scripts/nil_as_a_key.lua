-- Differs from Lua in the text: nil is no key to set, and reads as nil.
local t = {}
print(t[nil])
print(pcall(function() t[nil] = 1 end))
print(pcall(function() t[nil] = nil end))
print(pcall(function() return {[nil] = 1} end))
print(pcall(rawset, t, nil, 1))
print(rawget(t, nil), next(t))
