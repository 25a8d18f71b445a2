-- Comments of each form, in the middle of statements.
local a = 1 -- to the line's end
local b = --[[ inside ]] 2
local c --[==[
 several ]] lines
]==] = 3
print(a, --[[between]] b, c) --print("not run")
---[[ this is a short comment
print("run")
--]]
--[[
print("not run")
--]]
print(1 --[[]]+--[=[]=] 1)
