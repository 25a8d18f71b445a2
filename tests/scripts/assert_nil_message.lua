-- Differs from Lua, which raises nil then: a nil message counts as none.
print(pcall(assert, false, nil))
print(pcall(assert))
print(pcall(function() assert() end))
