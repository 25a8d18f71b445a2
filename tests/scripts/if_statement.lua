-- Each branch, and no branch.
local function kind(n)
  if n < 0 then return "negative"
  elseif n == 0 then return "zero"
  elseif n < 10 then return "small"
  else return "large" end
end
print(kind(-1), kind(0), kind(5), kind(50))
if false then print("no") end
if nil then print("no") elseif false then print("no") end
if 0 then print("zero is true") end
if "" then print("the empty string is true") end
