-- An error of the iterator has its own position and ends the loop.
local function it(s, i) if i == 2 then error("stopped") end return i + 1 end
print(pcall(function() for i in it, nil, 0 do print(i) end end))
