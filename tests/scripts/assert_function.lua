-- Differs from Lua 5.4, which puts a position before a message: all arguments where the first is true, else the message as it is.
print(assert(1, 2, 3))
print(assert("text"), (assert(true, "not raised")))
print(pcall(assert, false))
print(pcall(assert, nil, "message"))
print(pcall(function() assert(false, "no position") end))
print(pcall(function() assert(1 == 2) end))
local t = {}
local ok, e = pcall(assert, false, t)
print(e == t)
print(pcall(assert, nil, 42), pcall(assert, false, false))
