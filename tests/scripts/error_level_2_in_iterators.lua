-- Differs from Lua, which gives the line of the for: an iterator is called by no call expression.
print(pcall(function()
  for x in function() error("message", 2) end do end
end))
