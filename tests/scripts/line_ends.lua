-- Each of the four line ends counts as one line, and blanks of each kind part words.
local a = 1local b = 2
local c	=3

print(a, b, c)local s = [[x
yz]]
print(s, #s, #"p\
q")
local ok, e = pcall(function() error("here") end)
print(e)
