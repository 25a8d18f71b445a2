-- An error that nothing catches ends the script with its text.
local function f()
  error("no way on") -- line 3
end
print("before")
f()
