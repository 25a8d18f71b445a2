-- `ipairs` reads with `__index`.
local t = setmetatable({"a"}, {__index = function(t, i) if i <= 3 then return "made " .. i end end})
for i, v in ipairs(t) do print(i, v) end
local u = setmetatable({}, {__index = {"x", "y"}})
for i, v in ipairs(u) do print(i, v) end
