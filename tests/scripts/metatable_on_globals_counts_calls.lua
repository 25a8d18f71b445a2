-- Functions that are called by name are read from the globals at each call.
local count = 0
local real = {f = function(x) return x * 2 end}
setmetatable(_G, {__index = function(_, k) count = count + 1 return real[k] end})
local s = 0
for i = 1, 5 do s = s + f(i) end
print(s, count)
setmetatable(_G, nil)
print((pcall(function() return f(1) end)))
