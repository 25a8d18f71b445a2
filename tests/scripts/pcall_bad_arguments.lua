-- Differs from Lua in the text: `pcall` needs an argument, and calling what is no function is caught.
print(pcall(pcall))
print(pcall(nil))
print(pcall(nil, 1, 2))
print(pcall("text"))
print(pcall(function() pcall() end))
