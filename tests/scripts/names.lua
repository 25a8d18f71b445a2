-- Names may hold digits and underscores, and reserved words in part.
local _, __, _1, a1b2, endx, notnil, End, END = 1, 2, 3, 4, 5, 6, 7, 8
print(_, __, _1, a1b2, endx, notnil, End, END)
local const, self, goto_ = "const", "self", "goto"
print(const, self, goto_)
local t = {const = 1, self = 2}
print(t.const, t.self)
