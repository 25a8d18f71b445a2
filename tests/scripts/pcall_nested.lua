-- Each error ends at the innermost `pcall` round it.
print(pcall(function()
  print(pcall(function()
    print(pcall(error, "inner"))
    error("middle")
  end))
  error("outer")
end))
print(pcall(function() return pcall(function() return pcall(function() return "deep" end) end) end))
