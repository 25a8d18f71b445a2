-- The variable is a local of the turn: setting it changes no other turn.
for i = 1, 3 do
  local was = i
  i = i * 100
  print(was, i)
end
local i = "outer"
for i = i == "outer" and 1 or 9, 2 do print(i) end
print(i)
