-- An operand that isn't needed has no fault.
local n
print(n and n.x, n == nil or n.x, not n and "none" or n.x)
print(n and n.x.y.z, (n or {}).x, (n or {x = "default"}).x)
print(pcall(function() return n or error("needed", 0) end))
