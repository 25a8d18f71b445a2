-- Differs from Lua: the table of globals can't be named so.
print("never")
print(_ENV)
