-- The position is that of the call.
local function check(x)
  if x > 2 then error("too large", 2) end
end
for i = 1, 5 do
  print(i)
  check(i)
end
