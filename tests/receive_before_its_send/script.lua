local lanes = require "lanes" local l = lanes.linda()
print(l:receive("k"))
l:send("k", 1)
