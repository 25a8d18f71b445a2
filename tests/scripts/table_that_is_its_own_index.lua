local t = {} t.__index = t setmetatable(t, t) print(pcall(function() return t.x end)) -- Differs from Lua in the text.
