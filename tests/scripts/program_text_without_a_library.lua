-- Texts by `..`, `#` and comparisons alone.
local function rep(s, n) local r = "" for i = 1, n do r = r .. s end return r end
local function pad(s, n) s = "" .. s while #s < n do s = " " .. s end return s end
for i = 1, 5 do print(pad("", 5 - i) .. rep("*", 2 * i - 1)) end
for i = 1, 3 do
  local line = ""
  for j = 1, 3 do line = line .. pad(i * j, 4) end
  print(line)
end
local function join(t, sep) local s = "" for i, v in ipairs(t) do s = s .. (i > 1 and sep or "") .. tostring(v) end return s end
print(join({1, "two", true, 4}, ", "), join({}, "x"), join({"one"}, "x"))
