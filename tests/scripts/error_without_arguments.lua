-- Differs from Lua, where the argument may be left out: `error()` is a bad argument, `error(nil)` isn't.
print(pcall(error))
print(pcall(function() error() end))
print(pcall(error, nil))
print(pcall(function() error(nil) end))
print(pcall(error, "x", {}))
