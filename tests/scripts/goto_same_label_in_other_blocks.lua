-- Blocks beside each other, and inner functions, may use one name for their labels.
do goto l print("never") ::l:: print(1) end
do goto l print("never") ::l:: print(2) end
local function f()
  goto l
  print("never")
  ::l::
  return 3
end
print(f())
