-- A loop by goto, and a jump over statements.
local i = 1
::top::
if i <= 3 then
  print(i)
  i = i + 1
  goto top
end
goto over
print("never")
::over::
print("end")
