-- Differs from Lua, which has no such limit: a string has at most 67,108,864 bytes.
local s = "x"
for i = 1, 26 do s = s .. s end
print(#s)
print(pcall(function() return s .. "y" end))
print(pcall(function() return 1 .. s end))
print(#(s .. ""))
