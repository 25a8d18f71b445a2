-- Cells of parameters, of `...`'s names, of loop variables and of functions themselves.
local function make(a)
  local function inc(by) a = a + by return a end
  local function twice(by) inc(by) return inc(by) end
  return inc, twice
end
local inc, twice = make(100)
print(inc(1), twice(10), inc(0))
local fs = {}
for i, name in ipairs({"x", "y"}) do
  local function self_reference() return self_reference, i, name end
  fs[i] = self_reference
end
local f, i, name = fs[1]()
print(f == fs[1], i, name)
f, i, name = fs[2]()
print(f == fs[2], i, name)
