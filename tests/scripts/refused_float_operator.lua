-- Differs from Lua, which has a division with floats.
print("never")
print(2
  / 1)
