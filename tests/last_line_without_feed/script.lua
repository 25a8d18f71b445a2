local lanes = require "lanes" local l = lanes.linda()
l:send("k", 1)
print(l:receive("k"))