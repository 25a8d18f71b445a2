-- Arithmetic of integers in one loop.
local s = 0
for i = 1, 20000000 do
  s = s + (i * i - 7) % 13
end
print(s)
