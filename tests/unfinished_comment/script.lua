local x = 1
--[==[ no end ]=]
