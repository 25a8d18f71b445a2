-- An iterator made of a closure.
local function words(...)
  local list, n = {...}, 0
  return function() n = n + 1 return list[n] end
end
for w in words("one", "two", "three") do print(w) end
