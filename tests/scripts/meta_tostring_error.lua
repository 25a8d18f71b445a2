-- Differs from Lua, which writes the texts one by one: an error of the handler leaves nothing printed.
local t = setmetatable({}, {__tostring = function() error("no text") end})
print(pcall(print, "before", t))
print(pcall(tostring, t))
print("after")
