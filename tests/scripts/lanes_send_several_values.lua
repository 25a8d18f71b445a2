-- One send of several values puts them in order.
local l = require "lanes".linda()
l:send("k", 1, "two", 3)
l:send("k", 4)
for i = 1, 4 do print(l:receive("k")) end
