-- A function that is left by `return` from its loops, again and again.
local function find(t, want)
  for i = 1, #t do
    for j, v in ipairs(t[i]) do
      local k = 0
      while true do
        k = k + 1
        if v == want then return i, j, k end
        if k >= 2 then break end
      end
    end
  end
end
local t = {{1, 2}, {3, 4}, {5, 6}}
for want = 0, 6 do print(want, find(t, want)) end
