-- A function is called with the state and the value before, until it gives nil.
local function step(state, i)
  print("called", state, i)
  if i < 3 then return i + 1, i * 10 end
end
for i, v in step, "state", 0 do print(i, v) end
for i in step, "other", 3 do print("never") end
