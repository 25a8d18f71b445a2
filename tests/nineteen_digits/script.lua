local lanes = require "lanes" local l = lanes.linda()
l:send("k", 1000000000000000000)
print(l:receive("k"))
