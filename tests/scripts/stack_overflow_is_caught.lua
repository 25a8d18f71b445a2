-- Differs from Lua in the text and in the limit: nesting too deep raises a string that `pcall` catches.
local function f() return f() + 1 end
print(pcall(f))
local function g() g() end
print(pcall(g))
local function h(...) return (h(1, ...)) end
print(pcall(h))
local t = setmetatable({}, {__index = function(t, k) return t[k + 1] end})
print(pcall(function() return t[1] end))
local c = setmetatable({}, {__call = function(self) return self() end})
print(pcall(c))
local u = setmetatable({}, {__tostring = function(u) return tostring(u) end})
print(pcall(tostring, u))
print("on")
