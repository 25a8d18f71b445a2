-- Differs from Lua in the text, which names no variable: a fault of a global has the line of its use.
local function at(f) local ok, e = pcall(f) print(e) end
at(function()

  return nosuch.x
end)
setmetatable(_G, {__index = function(t, k) error("no global " .. k) end})
at(function() return nosuch end)
