-- Differs from Lua in the limit: a thousand evaluations may stand inside one another, so these recursions end there.
local function most(f)
  local n = 0
  while pcall(f, n + 1) do n = n + 1 end
  return n
end
local function add(n) if n == 0 then return 0 end return 1 + add(n - 1) end
local function tail(n) if n == 0 then return 0 end return tail(n - 1) end
local function call(n) if n > 0 then call(n - 1) end end
local function blocks(n) do do do if n > 0 then blocks(n - 1) end end end end end
local function protected(n) if n > 0 then assert(pcall(protected, n - 1)) end end
local function parens(n) return n == 0 or (((parens(n - 1)))) end
local object = {} function object:m(n) if n > 0 then self:m(n - 1) end end
print(most(add), most(tail), most(call), most(blocks))
print(most(protected), most(parens), most(function(n) object:m(n) end))
