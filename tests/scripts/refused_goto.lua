-- Differs from Lua in the text and the status: a goto without its label.
print("never")
do ::here:: end
goto here
