-- A local is captured through functions between.
local function a()
  local x = 0
  return function()
    local y = 0
    return function()
      x, y = x + 1, y + 10
      return x, y
    end
  end
end
local b = a()
local c, d = b(), b()
print(c())
print(c())
print(d())
print(a()()())
