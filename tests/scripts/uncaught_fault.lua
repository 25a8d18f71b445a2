-- Differs from Lua in the text. A fault that nothing catches ends the script, and what was printed stays.
print("before")
local t = nil
print(t.x)
print("after")
