-- Values that were evaluated before a caught error stand where they were.
local function count(...) return select("#", ...), ... end
local function fail(...) local a, b, c = 1, 2, ... error("failed", 0) end
print(count("a", "b", pcall(fail, 1, 2, 3)))
print(count("a", (pcall(fail)), "b", select(2, pcall(fail, 4)), "c"))
local t = {1, 2, (pcall(fail)), 4, pcall(fail, 5)}
print(#t, t[1], t[2], t[3], t[4], t[5], t[6])
print(1 + (pcall(fail) and 10 or 20) * 2, "x" .. tostring(pcall(fail)) .. "y")
local a, b, c, d = "a", pcall(fail, 6)
print(a, b, c, d)
local o = {}
o.x, o[pcall(fail) and 1 or 2], o.z = 1, pcall(fail, 7)
print(o.x, o[2], o.z)
