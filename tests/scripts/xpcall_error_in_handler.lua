-- Differs from Lua, which calls the handler again: an error of the handler is answered as it is.
print(xpcall(error, function(e) error("in handler") end, "x"))
print(xpcall(error, function(e) error({}) end, "x") == false)
print(select("#", xpcall(error, function(e) error("a", 0) end, "x")))
print(xpcall(error, error, "first"))
