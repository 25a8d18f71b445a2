-- Reading, setting, comparing and measuring without handlers.
local t = {1, 2, x = "x"}
print(rawget(t, 1), rawget(t, "x"), rawget(t, "y"), rawget(t, nil))
print(rawset(t, "y", "new") == t, t.y, rawset(t, "y", nil) == t, t.y)
print(rawequal(t, t), rawequal(t, {}), rawequal(1, 1), rawequal("a", "a"), rawequal(1, "1"), rawequal(nil, nil), rawequal(nil, false))
print(rawlen(t), rawlen("abc"), rawlen(""), rawlen({}))
print(rawget(t, 1, "more"), rawlen(t, "more"))
