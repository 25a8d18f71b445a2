-- Differs from Lua in the text: `ipairs` takes any value, and its step indexes it.
print(select("#", ipairs(nil)), select("#", ipairs(5)))
print(pcall(function() for i in ipairs(nil) do end end))
print(pcall(function() for i in ipairs(5) do end end))
print(pcall(function() local f, s, c = ipairs(true) return f(s, c) end))
print(pcall((ipairs({}))))
print(pcall((ipairs({})), {}))
print(pcall((ipairs({})), {}, "x"))
print((ipairs({}))({"a", "b"}, "1"))
