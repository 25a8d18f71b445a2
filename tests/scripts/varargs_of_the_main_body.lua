-- The main body takes `...`, which is empty.
print(select("#", ...), ...)
local a, b = ...
print(a, b, #{...})
