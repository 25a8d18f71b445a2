-- Loops inside loops over arrays: products of matrices.
local function matrix(n, seed)
  local m = {}
  for i = 1, n do
    local row = {}
    for j = 1, n do row[j] = (i * seed + j * 7) % 11 - 5 end
    m[i] = row
  end
  return m
end
local n = 190
local a, b = matrix(n, 3), matrix(n, 5)
for turn = 1, 2 do
  local c = {}
  for i = 1, n do
    local row, from = {}, a[i]
    for j = 1, n do
      local sum = 0
      for k = 1, n do sum = sum + from[k] * b[k][j] end
      row[j] = sum % 1009
    end
    c[i] = row
  end
  a = c
end
local s = 0
for i = 1, n do for j = 1, n do s = s + a[i][j] end end
print(s)
