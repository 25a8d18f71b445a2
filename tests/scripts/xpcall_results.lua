-- The handler gets the error, and its first value is answered.
local function h(e) return "handled: " .. tostring(e), "dropped" end
print(xpcall(function() return 1, nil, 3 end, h))
print(xpcall(function(...) return select("#", ...), ... end, h, 1, 2, nil))
print(xpcall(error, h, "message", 0))
print(xpcall(function() error("here") end, h))
print(xpcall(function() error({}) end, function(e) return type(e) end))
print(xpcall(function() local x = nil; x() end, function(e) return "caught" end))
print(xpcall(function() error(nil) end, h))
