-- Differs from Lua in the limit: expressions count too, so a deep expression needs room.
local function down(n, f) if n == 0 then return f() end return down(n - 1, f) end
local function flat() return 1 end
local function deep() return 1 + (1 + (1 + (1 + (1 + (1 + (1 + (1 + (1 + (1 + 1))))))))) end
local function most(f)
  local n = 0
  while pcall(down, n + 1, f) do n = n + 1 end
  return n
end
print(most(flat), most(deep))
