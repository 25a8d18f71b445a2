-- Differs from Lua in the text.
local function f() return 1 + f() end
print("before")
f()
