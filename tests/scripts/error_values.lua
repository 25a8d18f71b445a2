-- Any value is an error, and only strings get a position.
local t = {code = 42}
local ok, e = pcall(error, t)
print(ok, e == t, e.code)
ok, e = pcall(function() error(t) end)
print(ok, e == t)
print(pcall(function() error(42) end))
print(pcall(function() error(true) end))
print(pcall(function() error(nil) end))
print(pcall(function() error(false, 2) end))
ok, e = pcall(function() error(print) end)
print(e == print)
print(type(select(2, pcall(error, {}))), type(select(2, pcall(error, 1))))
print(pcall(function() error("") end))
