-- Values of `pcall` in conditions, loops and lists.
local function try(f, ...) local r = {pcall(f, ...)} if r[1] then return r[2] end return "failed: " .. r[2] end
print(try(function(a) return a end, 5), try(error, "why"))
local i = 0
while pcall(function() i = i + 1 if i > 3 then error("stop") end end) do print(i) end
print(i)
if not pcall(error, "x") then print("caught") end
