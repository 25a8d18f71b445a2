-- An error that is raised again keeps its text, and gets a position again unless level 0 is given.
local function f() error("first") end
print(pcall(function() local ok, e = pcall(f) error(e) end))
print(pcall(function() local ok, e = pcall(f) error(e, 0) end))
local t = {}
local ok, e = pcall(function() local ok, e = pcall(error, t) error(e) end)
print(e == t)
