-- One name in nested scopes.
local i = "outer"
for i = 1, 2 do
  local i = i * 10
  for i = i, i + 1 do
    local i = "[" .. i .. "]"
    print(i)
  end
  print(i)
end
print(i)
local function f(i, ...) local i = i or "none" return i, ... end
print(f(), f(1, 2))
