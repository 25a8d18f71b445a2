-- Differs from Lua in the text: only the module of lanes is there, and it is made once.
local lanes = require "lanes"
print(type(lanes), lanes == require("lanes"), require "lanes" == lanes)
print(pcall(require, "other"))
print(pcall(function() require "other" end))
print(pcall(require))
print(pcall(require, {}))
print(pcall(require, 5))
