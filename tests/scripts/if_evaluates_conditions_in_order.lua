-- Conditions are evaluated up to the first that is true.
local function c(name, v) print(name) return v end
if c("a", false) then
elseif c("b", 1) then print("taken")
elseif c("c", true) then
else print("not here") end
