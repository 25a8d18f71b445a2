-- a comment

local x = @
