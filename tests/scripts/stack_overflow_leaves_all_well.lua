-- Differs from Lua in the limit: after an overflow everything goes on, many times.
local depth = 0
local function f() depth = depth + 1 f() end
local first
for i = 1, 20 do
  depth = 0
  local ok, e = pcall(f)
  first = first or depth
  if ok or e ~= "stack overflow" or depth ~= first then print("wrong", i, ok, e, depth) end
end
print(first)
