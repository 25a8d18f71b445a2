-- Differs from Lua, which uses `__tostring`: the type is named all the same.
error(setmetatable({}, {__tostring = function() return "text" end}))
