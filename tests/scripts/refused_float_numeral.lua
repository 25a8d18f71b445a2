-- Differs from Lua, which has floats.
print("never")
print(1.5)
