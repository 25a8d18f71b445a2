-- Differs from Lua, where the handler must be a function: it is called only when there is an error.
print(xpcall(function() return "fine" end, nil))
print(xpcall(error, nil, "x"))
print(xpcall(error, setmetatable({}, {__call = function(self, e) return "by table: " .. e end}), "x"))
print(pcall(xpcall))
print(pcall(xpcall, error))
print(pcall(function() xpcall(print) end))
