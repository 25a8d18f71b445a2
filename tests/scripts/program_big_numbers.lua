-- Factorials as lists of digits.
local base = 1000000
local function times(a, n)
  local carry, r = 0, {}
  for i = 1, #a do
    local v = a[i] * n + carry
    r[i], carry = v % base, v // base
  end
  while carry > 0 do r[#r + 1], carry = carry % base, carry // base end
  return r
end
local function text(a)
  local s = "" .. a[#a]
  for i = #a - 1, 1, -1 do
    local d = "" .. a[i]
    while #d < 6 do d = "0" .. d end
    s = s .. d
  end
  return s
end
local f = {1}
for i = 1, 30 do f = times(f, i) end
print(text(f))
