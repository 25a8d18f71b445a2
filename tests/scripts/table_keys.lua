-- Keys of different kinds are different, and equal strings are one key.
local t, a, b = {}, {}, {}
t[1], t["1"], t[true], t[a], t[b], t[print] = "integer", "string", "boolean", "table a", "table b", "function"
print(t[1], t["1"], t[true], t[false], t[a], t[b], t[{}], t[print], t[pcall])
t["a" .. "b"] = "joined"
print(t.ab, t["ab"], t["a" .. "b"])
t[0], t[-1], t[math.mininteger], t[math.maxinteger] = 0, -1, "min", "max"
print(t[0], t[-1], t[math.mininteger], t[math.maxinteger], t[0x8000000000000000])
t[""] = "empty"
print(t[""], t.nothing)
