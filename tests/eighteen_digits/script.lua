local lanes = require "lanes" local l = lanes.linda()
l:send("k", 999999999999999999)
print(l:receive("k"))
