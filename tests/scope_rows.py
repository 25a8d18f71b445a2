"""Scripts, and what the rules of scope say of each: the Lua 5.4 manual, sections 3.3.4, 3.3.7, 3.4.11 and 3.5, cut as
docs/LANGUAGE.md says.

Each row is a script and None where it is accepted, else 'LINE: TEXT' of the first place in the text that breaks a rule. None comes
from the program's own answers: they follow from the rules, and those without `_ENV` agree with the reference Lua on whether a
script is accepted, but for the three where what a `for` hides would count there. Every script but those of EARLIER spells a tree,
so that no other fault is answered before these.
"""

CONSTANT = "assignment to a constant"
BREAK = "break outside a loop"
DOTS = "'...' outside a vararg function"
LOCALS = "too many local variables"
ENV = "_ENV is not supported"


def names(count, letter="a"):
    """So many names, each another."""
    return ", ".join(f"{letter}{number}" for number in range(count))


def lines(count, letter="a"):
    """So many statements, a line for each, that declare a local each."""
    return "".join(f"local {letter}{number}\n" for number in range(count))


VISIBLE = [
    # ---- a local shadows an earlier one of its name, to the end of its block; its own value sees the earlier one
    ("local x = 1 local x = x", None),
    ("local x <const> = 1 local x = 2 x = 3", None),
    ("local x = 1 local x <const> = 2\nx = 3", f"2: {CONSTANT}"),
    ("local x <const> = 1 do local x = 2 x = 3 end", None),
    ("local x <const> = 1 do local x = 2 x = 3 end\nx = 4", f"2: {CONSTANT}"),
    ("local x = 1 do local x <const> = 2 end x = 3", None),
    ("local x <const>, x = 1, 2 x = 3", None),
    ("local x, x <const> = 1, 2\nx = 3", f"2: {CONSTANT}"),
    ("local f <const> = function()\nf = 1 end", None),
    ("local x <const> = 1 local x = function()\nx = 2 end", f"2: {CONSTANT}"),
    ("local x <const> = 1 local y, x = function()\nx = 2 end", f"2: {CONSTANT}"),
    ("x = 1 local x <const> = 2", None),
    ("do local x <const> = 1 end x = 2", None),
    ("if a then local x <const> = 1 else x = 2 end", None),
    ("if a then local x <const> = 1 elseif b then x = 2 end x = 3", None),
    ("while a do local x <const> = 1 end x = 2", None),
    ("do do local x <const> = 1 end x = 2 end x = 3", None),
    ("local x = 1 do local x <const> = x do local x = x x = 2 end\nx = 3 end", f"2: {CONSTANT}"),
    ("local x, y <const> = function() x = 1 y = 2 end\ny = 3", f"2: {CONSTANT}"),
    ("local x <const> = function() local x = 1 x = 2 end", None),
    # ---- a `local function` is visible in its own body, and isn't constant
    ("local function f() return f() end", None),
    ("local function f() f = 1 end", None),
    ("local f <const> = 1 local function f() f = 2 end f = 3", None),
    ("local function f() end local f <const> = f\nf = 1", f"2: {CONSTANT}"),
    ("local f <const> = function() return f() end", None),
    ("local f <const> = 1 local function f() return function() f = 2 end end", None),
    ("local f <const> = 1 do local function f() end f = 2 end\nf = 3", f"2: {CONSTANT}"),
    ("local f <const> = 1 local function f(f) f = 2 end", None),
    ("local f <const> = 1 local function g() local function f() end f = 2 end", None),
    # ---- a local of a `repeat` is visible in its condition, and not behind it
    ("repeat local x <const> = 1 until x", None),
    ("repeat local x <const> = 1 until (function()\nx = 2 end)()", f"2: {CONSTANT}"),
    ("repeat local x <const> = 1 until f(function()\nlocal x = 2 x = 3 end)", None),
    ("repeat local x <const> = 1 until x x = 2", None),
    ("local x <const> = 1 repeat local x = 2 until (function() x = 3 end)()", None),
    ("repeat do local x <const> = 1 end until (function() x = 2 end)()", None),
    ("repeat local x <const> = 1 repeat local x = 2 until f(function() x = 3 end) until f(function()\nx = 4 end)", f"2: {CONSTANT}"),
    ("local x <const> = 1 repeat local x = 2 until x\nx = 3", f"2: {CONSTANT}"),
    # ---- the variables of a `for` are visible in its body alone
    ("for i = 1, 2 do i = 3 end", None),
    ("local i <const> = 1 for i = i, i do i = 2 end", None),
    ("local i <const> = 1 for i = 1, 2 do end\ni = 2", f"2: {CONSTANT}"),
    ("local i <const> = 1 for i = (function()\ni = 2 end)(), 2 do end", f"2: {CONSTANT}"),
    ("local i <const> = 1 for i = 1, 2, (function()\ni = 2 end)() do end", f"2: {CONSTANT}"),
    ("local k <const> = 1 for k, v in k do k = v v = k end", None),
    ("local v <const> = 1 for k, v in (function()\nv = 2 end)() do end", f"2: {CONSTANT}"),
    ("for k, v in x do local k <const> = v\nk = 1 end", f"2: {CONSTANT}"),
    ("local v <const> = 1 for k, v in x do f = function() v = 2 end end", None),
    ("local k <const> = 1 for k in x do end\nk = 2", f"2: {CONSTANT}"),
    ("local i <const> = 1 for j = 1, 2 do for i = 1, 2 do i = 3 end\ni = 4 end", f"2: {CONSTANT}"),
    ("for i = 1, 2 do local i <const> = i for i = i, 2 do i = 3 end\ni = 4 end", f"2: {CONSTANT}"),
    # ---- parameters and `self`
    ("local a <const> = 1 function f(a) a = 2 end", None),
    ("local a <const> = 1 function f(a) end\na = 2", f"2: {CONSTANT}"),
    ("function f(a, a) a = 1 end", None),
    ("function t:m() self = 1 end", None),
    ("local self <const> = 1 function t:m() self = 2 end", None),
    ("local self <const> = 1 function t.m()\nself = 2 end", f"2: {CONSTANT}"),
    ("local self <const> = 1 function t:m() return function() self = 2 end end", None),
    ("function t:m(self) self = 1 end", None),
    ("local a <const> = 1 function f(a) return function() a = 2 end end", None),
    ("local a <const> = 1 function f(b) return function(a) a = 2 end,\nfunction() a = 3 end end", f"2: {CONSTANT}"),
    ("function f(a) local a <const> = a\na = 1 end", f"2: {CONSTANT}"),
    ("function t:m() local self <const> = self\nself = 1 end", f"2: {CONSTANT}"),
    ("local self <const> = 1 t.m = function()\nself = 2 end", f"2: {CONSTANT}"),
]

CONSTANTS = [
    # ---- an assignment to a constant, at its name
    ("local x <const> = 1 x = 2", f"1: {CONSTANT}"),
    ("local x <const> = 1\nx,\ny = 2", f"2: {CONSTANT}"),
    ("local x <const> = 1 y,\nx = 2", f"2: {CONSTANT}"),
    ("local x <const> = {} x.y = 1 x[1] = 2 x.y.z = 3", None),
    ("local x <const> = {} x() x.f() x:m()", None),
    ("local x <const> = 1 y[x] = x", None),
    ("local x <const> = {} (x).y = 1", None),
    ("local x <const> = 1\nfunction\nx() end", f"3: {CONSTANT}"),
    ("local x <const> = {} function x.f() end function x:m() end", None),
    ("local x <const> = 1 local function x() end x = 2", None),
    ("local x <const> x = 1", f"1: {CONSTANT}"),
    ("local x <const> = 1\nx = x", f"2: {CONSTANT}"),
    ("local x <const> = {} x[x], x.y,\nx = 1", f"2: {CONSTANT}"),
    ("local x, y <const>, z = 1, 2, 3 x, z = 4, 5\ny = 6", f"2: {CONSTANT}"),
    ("local x <const> = 1 return function()\nfunction x() end end", f"2: {CONSTANT}"),
    ("local x <const> = 1 f{x = 2}", None),
    ("local x <const> = 1 return x, {x, x = x, [x] = x}, f(x), -x, x + x, x and x, (x)", None),
    ("local x <const> = 1 while x do if x then x = 2 end end", f"1: {CONSTANT}"),
    ("local x <const> = 1 for i = 1, 2 do\nx = i end", f"2: {CONSTANT}"),
    ("local x <const> = 1 repeat\nx = 2 until x", f"2: {CONSTANT}"),
    # ---- through one, two and three bodies
    ("local x <const> = 1 f = function()\nx = 2 end", f"2: {CONSTANT}"),
    ("local x <const> = 1 f = function() return function()\nx = 2 end end", f"2: {CONSTANT}"),
    ("local x <const> = 1 f = function() return function() return function()\nx = 2 end end end", f"2: {CONSTANT}"),
    ("local x <const> = 1 f = function() local x = 2 return function() x = 3 end end", None),
    ("local x = 1 f = function() local x <const> = 2 return function()\nx = 3 end end", f"2: {CONSTANT}"),
    ("local x <const> = 1 f = function() g(x, x) return function() return x end end", None),
    ("local x <const> = 1 f = function() g(x)\nx = 2 end", f"2: {CONSTANT}"),
    ("f = function() local x <const> = 1 return function() return function()\nx = 2 end end end", f"2: {CONSTANT}"),
    ("local x <const> = 1 f = function() for x = 1, 2 do x = 3 end\nx = 4 end", f"2: {CONSTANT}"),
    ("local x <const> = 1 f = function() do local x = 2 g = function() x = 3 end end h = function()\nx = 4 end end", f"2: {CONSTANT}"),
    ("local x <const> = 1 t = {f = function() return {\ng = function() x = 2 end} end}", f"2: {CONSTANT}"),
]

CAPTURES = [
    # ---- through one, two and three bodies, read and assigned, once and more than once
    ("local x f = function() x = x end", None),
    ("local x f = function() return function() x = x end end", None),
    ("local x f = function() return function() return function() x = x end end end", None),
    ("local x f = function() return x + x end g = function() return x end", None),
    ("local x, y f = function() return y, x, y end", None),
    ("local x f = function(y) return function(z) return function() return x, y, z, x end end end", None),
    ("for i = 1, 2 do f[i] = function() return i end end", None),
    ("repeat local x = 1 f = function() return x end until x == f()", None),
    ("local function f() return function() return f end end", None),
    ("function t:m() return function() return self end end", None),
    ("local a, b f = function() return function() b = a return function() a = b end end end", None),
    ("local a f = function() local b return function() local c return function() a, b, c = c, b, a end end end", None),
    ("for k, v in x do f[k] = function() return function() v = k end end end", None),
    ("function f(a, ...) return function() return function() a = a end end, ... end", None),
    ("while x do local y f = function() y = y end end", None),
    ("if x then local y f = function() return y end else local y g = function() return y end end", None),
]

LOOPS = [
    # ---- `break` stands in a loop of its own function
    ("break", f"1: {BREAK}"),
    ("do\nbreak end", f"2: {BREAK}"),
    ("if x then\nbreak end", f"2: {BREAK}"),
    ("if x then else\nbreak end", f"2: {BREAK}"),
    ("while x do if y then break end do break end end", None),
    ("while x do end\nbreak", f"2: {BREAK}"),
    ("repeat break until x", None),
    ("for i = 1, 2 do break end", None),
    ("for k in x do break end", None),
    ("for i = 1, 2 do for j = 1, 2 do break end break end", None),
    ("for i = 1, 2 do end\nbreak", f"2: {BREAK}"),
    ("while x do f = function()\nbreak end end", f"2: {BREAK}"),
    ("while x do local function f()\nbreak end end", f"2: {BREAK}"),
    ("while x do function f()\nif x then break end end end", f"2: {BREAK}"),
    ("while x do f = function() while y do break end end break end", None),
    ("while x do f = function() while y do break end end break end\nbreak", f"2: {BREAK}"),
    ("while (function()\nbreak end)() do end", f"2: {BREAK}"),
    ("repeat until (function()\nbreak end)()", f"2: {BREAK}"),
    ("repeat until (function() while x do break end end)()", None),
    ("while x do repeat until (function()\nbreak end)() end", f"2: {BREAK}"),
    ("for i = 1, 2 do for k in (function()\nbreak end)() do end end", f"2: {BREAK}"),
    ("for i = 1, (function()\nbreak end)() do end", f"2: {BREAK}"),
    ("while x do function t:m()\nbreak end end", f"2: {BREAK}"),
    ("while x do f{g = function()\nbreak end} break end", f"2: {BREAK}"),
    ("while x do f = function() return function() while y do break end\nbreak end end end", f"2: {BREAK}"),
    ("while x do if y then elseif z then break else break end end", None),
    ("repeat do do if x then break end end end until x", None),
    ("f = function() while x do break end end while x do break end", None),
    ("function f()\nbreak end", f"2: {BREAK}"),
    ("while x do break end do\nbreak end", f"2: {BREAK}"),
    ("repeat break until x break", f"1: {BREAK}"),
]

VARARGS = [
    # ---- `...` stands in a function that takes it; the main body does
    ("return ...", None),
    ("local x = ... while ... do f(..., 1) end", None),
    ("function f() return\n... end", f"2: {DOTS}"),
    ("function f(a, b) return {\n...} end", f"2: {DOTS}"),
    ("function f(...) return ... end", None),
    ("function f(a, ...) return a, ... end", None),
    ("function f(...) return function() return\n... end end", f"2: {DOTS}"),
    ("function f() return function(...) return ... end end", None),
    ("function f() return function(...) end,\n... end", f"2: {DOTS}"),
    ("local function f() f(\n...) end", f"2: {DOTS}"),
    ("function t:m() return\n... end", f"2: {DOTS}"),
    ("function t:m(...) return self, ... end", None),
    ("while x do f(...) end for i = ..., 2 do g = {...} end", None),
    ("function f() for i =\n..., 2 do end end", f"2: {DOTS}"),
    ("function f() for k in\n... do end end", f"2: {DOTS}"),
    ("function f() while\n... do end end", f"2: {DOTS}"),
    ("function f() repeat until\n... end", f"2: {DOTS}"),
    ("function f() local x =\n... end", f"2: {DOTS}"),
    ("function f() x =\n... end", f"2: {DOTS}"),
    ("function f() x[\n...] = 1 end", f"2: {DOTS}"),
    ("function f() x = {[\n...] = 1} end", f"2: {DOTS}"),
    ("function f() x:m(\n...) end", f"2: {DOTS}"),
    ("function f() return (\n...) end", f"2: {DOTS}"),
    ("function f() return 1 +\n... end", f"2: {DOTS}"),
    ("function f() return x and\n... end", f"2: {DOTS}"),
    ("function f() return #\n... end", f"2: {DOTS}"),
    ("function f(...) return function(...) return function() return\n... end end end", f"2: {DOTS}"),
    ("x = function() end y = ...", None),
]

ENVIRONMENT = [
    # ---- `_ENV` is refused as a variable and as a declared name, and is a field, a method, a key and a text like any other
    ("_ENV = 1", f"1: {ENV}"),
    ("x = _ENV", f"1: {ENV}"),
    ("x = 1\n_ENV.x = 1", f"2: {ENV}"),
    ("return _ENV", f"1: {ENV}"),
    ("_ENV()", f"1: {ENV}"),
    ("local\n_ENV", f"2: {ENV}"),
    ("local x,\n_ENV <const> = 1, 2", f"2: {ENV}"),
    ("local function\n_ENV() end", f"2: {ENV}"),
    ("function\n_ENV() end", f"2: {ENV}"),
    ("function\n_ENV.f() end", f"2: {ENV}"),
    ("function f(a,\n_ENV) end", f"2: {ENV}"),
    ("for\n_ENV = 1, 2 do end", f"2: {ENV}"),
    ("for k,\n_ENV in x do end", f"2: {ENV}"),
    ("x._ENV = 1 x:_ENV() x = {_ENV = 1, ['_ENV'] = 2} x = '_ENV' function x._ENV() end function x:_ENV() end", None),
    ("local\n_ENV <const> = 1", f"2: {ENV}"),
    ("local function f(\n_ENV) end", f"2: {ENV}"),
    ("function t:m(\n_ENV, ...) end", f"2: {ENV}"),
    ("function\n_ENV:m() end", f"2: {ENV}"),
    ("x.y,\n_ENV = 1, 2", f"2: {ENV}"),
    ("x = {\n_ENV}", f"2: {ENV}"),
    ("x = {[\n_ENV] = 1}", f"2: {ENV}"),
    ("x = {_ENV =\n_ENV}", f"2: {ENV}"),
    ("x = -\n_ENV", f"2: {ENV}"),
    ("x = y[\n_ENV]", f"2: {ENV}"),
    ("x = y._ENV[\n_ENV]", f"2: {ENV}"),
    ("\n_ENV:m()", f"2: {ENV}"),
    ("_ENV._ENV = 1", f"1: {ENV}"),
    ("x = function() return function() return\n_ENV end end", f"2: {ENV}"),
    ("x = y._ENV.z x._ENV.y = 1 x._ENV() x._ENV:_ENV()", None),
    ("_env = 1 _ENV_ = 2 _EN = 3 ENV = 4", None),
]

FIRST = [
    # ---- of several faults the first in the text is answered
    ("break\nreturn _ENV", f"1: {BREAK}"),
    ("x = _ENV\nbreak", f"1: {ENV}"),
    ("local c <const> = 1 c = function()\nreturn ... end", f"1: {CONSTANT}"),
    ("local c <const> = 1 local x = function()\nreturn ... end\nc = 2", f"2: {DOTS}"),
    ("local c <const> = 1 f(function()\nbreak end)\nc = 2", f"2: {BREAK}"),
    ("local c <const> = 1 x, c,\n_ENV = 1", f"1: {CONSTANT}"),
    ("local c <const> = 1 _ENV,\nc = 1", f"1: {ENV}"),
    ("local _ENV = function()\nbreak end", f"1: {ENV}"),
    ("for _ENV = 1, function()\nbreak end do end", f"1: {ENV}"),
    ("for i = function()\nbreak end, 2 do\nbreak x = _ENV end", f"2: {BREAK}"),
    ("for i = 1, 2 do break end\nx = function() return ..., _ENV end", f"2: {DOTS}"),
    ("function f(_ENV)\nbreak end", f"1: {ENV}"),
    ("repeat x = _ENV until\n(function() break end)()", f"1: {ENV}"),
    ("while _ENV do end\nbreak", f"1: {ENV}"),
    ("if x then elseif\n_ENV then else break end\nbreak", f"2: {ENV}"),
    ("local c <const> = 1 x[function()\nbreak end],\nc = _ENV", f"2: {BREAK}"),
    ("local c <const> = 1 c,\nx[_ENV] = 1", f"1: {CONSTANT}"),
    ("function f() return ...,\n_ENV end", f"1: {DOTS}"),
    ("function f() return _ENV,\n... end", f"1: {ENV}"),
    ("function f() return ... ..\n_ENV end", f"1: {DOTS}"),
    ("function f() return _ENV +\n... end", f"1: {ENV}"),
    ("function f() return x or _ENV or\n... end", f"1: {ENV}"),
    ("function f() return {[...] =\n_ENV} end", f"1: {DOTS}"),
    ("function f() return {_ENV,\nx = ...} end", f"1: {ENV}"),
    ("function f() _ENV(\n...) end", f"1: {ENV}"),
    ("function f() _ENV:m(\n...) end", f"1: {ENV}"),
    ("function f() g(...,\n_ENV) end", f"1: {DOTS}"),
    ("function f() return x[...][\n_ENV] end", f"1: {DOTS}"),
    ("function f() if ... then x =\n_ENV end end", f"1: {DOTS}"),
    ("function f() if x then x = _ENV elseif\n... then end end", f"1: {ENV}"),
    ("function f() while ... do x =\n_ENV end end", f"1: {DOTS}"),
    ("function f() for i = ..., _ENV,\n_ENV do end end", f"1: {DOTS}"),
    ("function f() for i = 1, 2,\n... do x = _ENV end end", f"2: {DOTS}"),
    ("function f() for k, _ENV in\n... do end end", f"1: {ENV}"),
    ("function f() for k in ... do x =\n_ENV end end", f"1: {DOTS}"),
    ("local function _ENV(\n_ENV) break end", f"1: {ENV}"),
    ("local function f(_ENV)\nbreak end", f"1: {ENV}"),
    ("local c <const> = 1 function\nc(_ENV) end", f"2: {CONSTANT}"),
    ("x = function() return function()\nbreak end, _ENV end\nbreak", f"2: {BREAK}"),
    ("while x do f = function() break end end\nbreak", f"1: {BREAK}"),
]

EARLIER = [
    # ---- a fault of the tokens or of the grammar is answered before any rule of scope, wherever it stands
    ("break\nx = = 1", "2: unexpected '='"),
    ("_ENV = 1\nx =", "2: unexpected end"),
    ("function f() return ... end\nx = 1 / 2", "2: float operator"),
    ("local c <const> = 1 c = 2\nlocal x <close> = 1", "2: unknown attribute"),
    ("break\ngoto", "2: unexpected end"),
    ("break\nx = 1.5", "2: float numeral"),
    ("x = _ENV\ny = 'a", "2: unfinished string"),
    ("return _ENV\nx = 1", "2: unexpected 'x'"),
]


def many_rows():
    """Around the 200th local that is visible at once in a function. It counts what is visible where a local is declared."""
    yield f"local {names(200)}", None
    yield f"local {names(200)},\nlast", f"2: {LOCALS}"
    yield f"local {names(199)} local last", None
    yield f"local {names(200)}\nlocal last", f"2: {LOCALS}"
    yield lines(200), None
    yield lines(201), f"201: {LOCALS}"
    # the same name again is another local
    yield "local x " * 200, None
    yield "local x " * 200 + "\nlocal x", f"2: {LOCALS}"
    # a block that has ended leaves room
    yield f"do local {names(200)} end local {names(200, 'b')}", None
    yield f"local {names(100)} do local {names(100, 'b')} end local {names(100, 'c')}", None
    yield f"local {names(100)} do local {names(100, 'b')} end local {names(100, 'c')}\nlocal last", f"2: {LOCALS}"
    yield f"local {names(100)} do local {names(100, 'b')} do\nlocal last end end", f"2: {LOCALS}"
    yield f"local {names(199)} do local x end do local x do end end while y do local x end", None
    yield f"local {names(199)} if a then local x elseif b then local x else local x\nlocal y end", f"2: {LOCALS}"
    yield f"repeat local {names(200)} until x local {names(200, 'b')}", None
    # the variables of a `for` count in its body, what it hides doesn't
    yield f"local {names(199)} for i = 1, 2 do end for k in x do end", None
    yield f"local {names(199)} for i = 1, 2 do\nlocal x end", f"2: {LOCALS}"
    yield f"local {names(199)} for k,\nv in x do end", f"2: {LOCALS}"
    yield f"local {names(200)} for\ni = 1, 2 do end", f"2: {LOCALS}"
    yield f"local {names(198)} for i = 1, 2 do local x end local y", None
    yield f"local {names(100)} do local {names(99, 'b')} do local x end do local x end local x\nlocal last end", f"2: {LOCALS}"
    yield f"local {names(100)} do local {names(50, 'b')} do local {names(50, 'c')} end local {names(50)} end local {names(100)}", None
    yield f"local {names(199)} repeat local x until (function() local {names(200, 'b')} end)() local last", None
    yield f"local {names(199)} if a then local x end while b do local x end for i = 1, 2 do end local last", None
    # a function has a count of its own, with its parameters and `self`
    yield f"local {names(200)} x = function() local {names(200, 'b')} end", None
    yield f"local {names(200)} x = function() local {names(200, 'b')}\nlocal last end", f"2: {LOCALS}"
    yield f"local {names(199)} x = function(a, b) local {names(198, 'c')} end local last", None
    yield f"x = function(a, b) local {names(198, 'c')}\nlocal last end", f"2: {LOCALS}"
    yield f"x = function({names(200)}) end", None
    yield f"x = function({names(200)},\nlast) end", f"2: {LOCALS}"
    yield f"function t:m({names(199)}) end", None
    yield f"function t:m({names(199)},\nlast) end", f"2: {LOCALS}"
    yield f"local {names(199)} local function f() local {names(200, 'b')} end", None
    yield f"x = function({names(100)}) do local {names(100, 'b')} end local {names(100, 'c')}\nlocal last end", f"2: {LOCALS}"
    yield f"x = function() local {names(200)} return function() local {names(200)} f(function() local {names(200)} end) end end", None
    yield f"do x = function() local {names(200)} end end local {names(200, 'b')}", None
    yield f"function t:m({names(198)}) local last end", None
    yield f"function t:m({names(198)}) local last\nlocal more end", f"2: {LOCALS}"
    yield f"local {names(200)} local function\nf() end", f"2: {LOCALS}"
    # a value stands before its name is visible, and behind the name in the text
    yield f"local {names(200)} = function() local {names(200, 'b')} end", None
    yield f"local {names(200)} local last = function()\nbreak end", f"1: {LOCALS}"
    yield f"local {names(200)} for\ni = _ENV, 2 do end", f"2: {LOCALS}"
    yield f"local {names(200)} for\nk in _ENV do end", f"2: {LOCALS}"
    yield f"local {names(200)} local function\nf() break end", f"2: {LOCALS}"
    yield f"local {names(199)} local x,\ny, _ENV", f"2: {LOCALS}"
    yield f"local {names(201)}\nbreak", f"1: {LOCALS}"
    yield f"break\nlocal {names(201)}", f"1: {BREAK}"
    yield f"local {names(200)}\nlocal _ENV", f"2: {ENV}"


def rows():
    """All rows: a script, and None where it is accepted, else 'LINE: TEXT'."""
    for group in (VISIBLE, CONSTANTS, CAPTURES, LOOPS, VARARGS, ENVIRONMENT, FIRST, EARLIER):
        yield from group
    yield from many_rows()
