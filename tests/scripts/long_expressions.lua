-- Long chains of one operator, near the depth that a script may have.
print(1 + 2 + 3 + 4 + 5 + 6 + 7 + 8 + 9 + 10 + 11 + 12 + 13 + 14 + 15 + 16 + 17 + 18 + 19 + 20)
print(1 - 2 - 3 - 4 - 5 - 6 - 7 - 8 - 9 - 10, "a" .. "b" .. "c" .. "d" .. "e" .. "f" .. "g" .. "h" .. 1 .. 2 .. 3)
print(((((((((((((((((((((((((((((((((((((((1)))))))))))))))))))))))))))))))))))))))
print(not not not not not not true, - - - - - 5, ~ ~ ~ ~ 5, - ~ - ~ 5)
local t = {a = {b = {c = {d = {e = {f = {g = {h = "deep"}}}}}}}}
print(t.a.b.c.d.e.f.g.h, #t.a.b.c.d.e.f.g.h)
print({{{{{{{{1}}}}}}}} ~= nil, true and true and true and nil and true, nil or false or nil or 5 or 6)
