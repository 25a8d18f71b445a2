local lanes = require "lanes" local l = lanes.linda()
