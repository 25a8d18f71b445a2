-- Differs from Lua 5.4, which puts a position before the message.
print(assert(true, "fine"))
assert(1 > 2, "one is not more than two")
