-- Differs from Lua in the text: of two faults of a numeric for the kinds come first.
print(pcall(function() for i = 1, "x", 0 do end end))
