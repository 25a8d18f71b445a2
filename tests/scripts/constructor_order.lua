-- Keys and values are evaluated in order.
local function say(x) print(x) return x end
local t = {say(1), [say("key")] = say("value"), x = say("x"), say(2), [say("key 2")] = say("value 2")}
print(#t, t.key, t.x, t["key 2"])
