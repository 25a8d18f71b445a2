-- The object of a target may be a call's value or stand in parentheses.
local made = {}
local function object(n) made[n] = made[n] or {} return made[n] end
object(1).x = "one"
object(2)["y"] = "two"
object(3).a, object(3).b = 1, 2;
(object(1)).z = "paren"
print(made[1].x, made[2].y, made[3].a, made[3].b, made[1].z)
object(1).t = {}
object(1).t[object(3).a] = object(3).b
print(made[1].t[1])
