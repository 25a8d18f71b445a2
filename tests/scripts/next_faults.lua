-- Differs from Lua in the text of the faults.
print(pcall(next))
print(pcall(next, 1))
print(pcall(next, {}, "missing"))
print(pcall(function() return next({1}, 2) end))
print(next({}, nil), next({}))
