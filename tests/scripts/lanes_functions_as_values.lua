-- The functions of a handle may be called with it as their first argument.
local l = require "lanes".linda()
local send, receive = l.send, l.receive
print(send(l, "k", 1), receive(l, "k"))
print(pcall(l.send, l, "k", 2))
print(pcall(l.receive, l, "k"))
local t = {send = function(self, ...) return "mine", ... end}
print(t:send(1))
