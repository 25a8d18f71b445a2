-- What is received is what was sent.
local l = require "lanes".linda()
l:send("k", 5) l:send("k", "5")
local _, a = l:receive("k")
local _, b = l:receive("k")
print(type(a), type(b), a + 1, b .. 1, a == b)
local s = "joined " .. 12
l:send("k", s)
local _, c = l:receive("k")
print(c == s)
