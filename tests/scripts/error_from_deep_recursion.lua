-- An error leaves many calls at once, and through protected ones up to the one that is asked.
local function down(n) if n == 0 then error({depth = "bottom"}) end return down(n - 1) + 1 end
local ok, e = pcall(down, 100)
print(ok, e.depth)
local function nested(n)
  if n == 0 then error("bottom", 0) end
  local ok, e = pcall(nested, n - 1)
  error(e .. "<" .. n, 0)
end
print(pcall(nested, 5))
