-- An error value with `__tostring` is still a table.
local E = {__tostring = function(e) return "E: " .. e.message end}
local ok, e = pcall(function() error(setmetatable({message = "broken"}, E)) end)
print(ok, type(e), tostring(e), e.message, getmetatable(e) == E)
