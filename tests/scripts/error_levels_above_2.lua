-- Differs from Lua, which knows the callers of all levels: levels above 2 give no position.
local function raise(level) error("message", level) end
local function call(level) raise(level) return 1 end
print(pcall(function() call(3) return 1 end))
print(pcall(function() call(4) return 1 end))
print(pcall(function() call(100) return 1 end))
