-- Differs from Lua in the text and the status: no values of `...` in a function without it.
print("never", ...)
local function f() return ... end
