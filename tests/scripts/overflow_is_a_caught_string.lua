local function f() return f() + 1 end print(pcall(f)) -- Differs from Lua in the text and in the limit.
