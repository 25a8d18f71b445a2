-- Globals, fields, methods.
function f(a) return "global", a end
local t = {u = {}}
function t.f(a) return "field", a end
function t.u.f(a) return "inner field", a end
function t.u:m(a) return "method", self == t.u, a end
print(f(1))
print(t.f(2))
print(t.u.f(3))
print(t.u:m(4))
print(t.u.m(t.u, 5))
local g
function g() return "local" end
print(g(), _G.g)
