-- An operand of `and` or `or` gives one value, also at the end of a list.
local function three() return 1, 2, 3 end
print(three() or 0)
print(nil or three())
print(true and three())
print((three()))
