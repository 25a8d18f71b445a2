-- Differs from Lua in the text and the status: the script ends too early.
print("never")
if true then
  print(1)
