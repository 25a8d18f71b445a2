-- Differs from Lua in the text and the status: a break that stands in no loop.
print("never")
while true do
  local f = function() break end
end
