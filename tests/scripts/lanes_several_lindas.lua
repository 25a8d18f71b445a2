-- Each linda is by itself.
local lanes = require "lanes"
local a, b = lanes.linda(), lanes.linda("with a name")
a:send("k", "in a") b:send("k", "in b")
print(b:receive("k"))
print(a:receive("k"))
print(a == a, a == b, rawequal(a, a))
local t = {[a] = "a", [b] = "b"}
print(t[a], t[b])
