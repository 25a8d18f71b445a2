local lanes = require "lanes" local l = lanes.linda()
l:send("k", "a_b")
