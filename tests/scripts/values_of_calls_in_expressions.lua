-- An operand, a condition and a key use one value of a call.
local function two() return 4, 5 end
local function none() end
print(two() + 1, 1 + two(), two() .. "x", -two())
print(none() == nil, not none(), none() or "default")
local t = {[two()] = "four"}
print(t[4], t[5], t[two()])
if none() then print("no") else print("nil is false") end
