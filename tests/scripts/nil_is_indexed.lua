local t = nil print(t.x) -- Differs from Lua in the text, which names no variable.
