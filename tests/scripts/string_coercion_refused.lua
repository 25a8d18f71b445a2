-- Differs from Lua, where these strings are floats: a string of no integer is no number.
for _, s in ipairs({"1.5", "1e3", "9223372036854775808", "-9223372036854775809", "0x1p4", "0x.8"}) do
  print(s, pcall(function() return s + 1 end))
end
for _, s in ipairs({"", " ", "abc", "1 2", "0x", "1_0", "- 1", "--1", "+-1", "1,5", "nan", "inf"}) do
  print("[" .. s .. "]", pcall(function() return s + 1 end))
end
