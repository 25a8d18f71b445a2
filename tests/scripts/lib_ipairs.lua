-- From 1 on, up to the first nil.
for i, v in ipairs({"a", "b", "c"}) do print(i, v) end
for i, v in ipairs({"a", nil, "c"}) do print(i, v) end
for i, v in ipairs({nil, "b"}) do print("never", i, v) end
for i, v in ipairs({false, 0, ""}) do print(i, v) end
for i, v in ipairs({[0] = "zero", [1] = "one", x = "x"}) do print(i, v) end
local t = {1, 2, 3}
for i, v in ipairs(t) do if i < 6 then t[i + 3] = v * 10 end end
print(#t, t[4], t[8], t[9])
local f, s, c = ipairs(t)
print(s == t, c, f(t, 0))
print(f(t, 8), f(t, 100))
