-- The objects and keys of the targets come first, from left to right, and then the values.
local function say(name, v) print(name) return v end
local t = {}
say("object 1", t)[say("key 1", "a")], say("object 2", t)[say("key 2", "b")] = say("value 1", 1), say("value 2", 2)
print(t.a, t.b)
