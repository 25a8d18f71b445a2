-- Differs from Lua in the text and the status: no attribute but `const`.
print("never")
local f <close> = nil
