-- The function first, then its arguments in order.
local function say(name, v) print(name) return v end
local function f(...) print("call", select("#", ...)) end
say("function", f)(say("one", 1), say("two", 2), say("three", 3))
local o = {m = f}
say("object", o):m(say("argument", 1))
say("table", o)[say("key", "m")](say("argument", 2))
print(say("x", 1), say("y", 2))
