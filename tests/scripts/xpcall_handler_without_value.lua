-- A handler without a value gives nil, and of several values the first counts.
print(xpcall(error, function() end, "x"))
print(select("#", xpcall(error, function() end, "x")))
print(select("#", xpcall(error, function() return 1, 2, 3 end, "x")))
print(xpcall(error, print, "printed"))
