-- Differs from Lua: a library function that a for calls raises without a position, and with its own name.
print(pcall(function() for k in next, 5 do end end))
print(pcall(function() for k in next, {}, "no such key" do end end))
