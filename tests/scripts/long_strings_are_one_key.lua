-- Equal strings are one key however they were made, also long ones.
local function rep(s, n) local r = "" for i = 1, n do r = r .. s end return r end
local a, b = rep("abcdefghij", 100), rep("abcde" .. "fghij", 100)
local t = {[a] = 1}
print(#a, a == b, t[b], t[rep("abcdefghij", 99)])
t[b] = 2
print(t[a], a < b .. "x", a <= b, a .. "y" < b .. "x")
local n = 0
for _ in pairs(t) do n = n + 1 end
print(n)
