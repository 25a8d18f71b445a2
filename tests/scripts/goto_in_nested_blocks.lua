-- A jump to a label of an outer block, before and after the goto.
local n = 0
do
  ::back::
  n = n + 1
  do
    if n < 3 then
      do goto back end
    end
    if n == 3 then goto out end
  end
  print("never")
end
::out::
print(n)
