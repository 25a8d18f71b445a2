-- Lines are counted through long strings, comments and escapes.
local s = [[
3
4]]
--[[
6
7 ]] local u = "line 7\
8"
local v = "x\z

  y"
local ok, e = pcall(function() error("line 12") end)
print(e)
