-- What stands before an error is done, what stands after it isn't.
local log = ""
local function say(x) log = log .. x return x end
local function fail() log = log .. "!" error("stop", 0) end
local t
print(pcall(function() t = {say("a"), say("b"), fail(), say("c")} end), log, t)
log = ""
print(pcall(function() return say("d") + fail() + say("e") end))
print(log)
log = ""
print(pcall(function() print(say("f"), fail(), say("g")) end))
print(log)
log = ""
t = {}
print(pcall(function() t[say("h")], t[fail()] = say("i"), say("j") end))
print(log, next(t))
log = ""
print(pcall(function() local a, b = say("k"), fail() end))
print(log)
