-- `error` itself called by `pcall` gets no position at level 1, and that of `pcall` at level 2.
print(pcall(error, "message"))
print(pcall(error, "message", 1))
print(pcall(error, "message", 2)) -- line 4
print(pcall(error, "message", 0))
print(pcall(pcall, error, "message"))
print(select(2, pcall(
  error, "message", 2)))
