-- Three ways to sort a list.
local function copy(t) local r = {} for i, v in ipairs(t) do r[i] = v end return r end
local function insertion(t)
  for i = 2, #t do
    local v, j = t[i], i - 1
    while j > 0 and t[j] > v do t[j + 1] = t[j] j = j - 1 end
    t[j + 1] = v
  end
  return t
end
local function quick(t, low, high)
  low, high = low or 1, high or #t
  if low < high then
    local pivot, i = t[high], low
    for j = low, high - 1 do
      if t[j] < pivot then t[i], t[j] = t[j], t[i] i = i + 1 end
    end
    t[i], t[high] = t[high], t[i]
    quick(t, low, i - 1)
    quick(t, i + 1, high)
  end
  return t
end
local function merge(t)
  if #t < 2 then return t end
  local a, b, middle = {}, {}, #t // 2
  for i, v in ipairs(t) do if i <= middle then a[#a + 1] = v else b[#b + 1] = v end end
  a, b = merge(a), merge(b)
  local r, i, j = {}, 1, 1
  while i <= #a or j <= #b do
    if j > #b or (i <= #a and a[i] <= b[j]) then r[#r + 1] = a[i] i = i + 1
    else r[#r + 1] = b[j] j = j + 1 end
  end
  return r
end
local list, x = {}, 12345
for i = 1, 100 do x = (x * 1103515245 + 12345) % 2147483648 list[i] = x % 1000 end
local a, b, c = insertion(copy(list)), quick(copy(list)), merge(copy(list))
local same = true
for i = 1, 100 do same = same and a[i] == b[i] and b[i] == c[i] and (i == 1 or a[i - 1] <= a[i]) end
print(same, a[1], a[50], a[100])
print(quick({"pear", "apple", "fig"})[1])
