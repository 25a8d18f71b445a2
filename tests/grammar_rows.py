"""Scripts, and what the grammar says of each: rules of the Lua 5.4 manual, sections 3.3, 3.4 and 9, cut as docs/LANGUAGE.md says.

ACCEPTED are scripts, REFUSED are pairs of a script and 'LINE: TEXT' of its refusal. None comes from the program's own answers: they
follow from the rules, and those without floats, attributes and the limit of depth agree with the reference Lua.
"""

# The binary operators by precedence, from those that bind least; only `..` groups to the right.
LEVELS = ["or", "and", "< > <= >= ~= ==", "|", "~", "&", "<< >>", "..", "+ -", "* // %"]
UNARY = ["not", "#", "-", "~"]


def tall(text):
    """The script with each word on a line of its own, so that a line tells which word is refused."""
    return text.replace(" ", "\n")


def parens(count):
    """An expression of one level more than the count."""
    return "(" * count + "1" + ")" * count


ACCEPTED = [
    # ---- blocks and empty statements
    "", ";", ";;;", "; ; x = 1 ;", "#! first line\nx = 1", "-- a comment", "do end", "do ; end", "do do end end",
    "x = 1 y = 2", "x = 1; y = 2;", "do x = 1 end y = 2", "do return end", "do return 1 end x = 1",
    # ---- return
    "return", "return;", "return 1", "return 1;", "return 1, 2", "return 1, 2, nil;", "return f()", "return (f())",
    "return function() return end", "return ...", "return {}", "do return; end", "if x then return end",
    "if x then return 1 else return 2 end", "if x then return elseif y then return end", "repeat return until x",
    "while x do return end", "repeat return; until x",
    # ---- assignments
    "x = 1", "x, y = 1, 2", "x, y, z = 1", "x = 1, 2, 3", "a.b = 1", "a.b.c = 1", "a[1] = 1", "a[b][c] = 1", "a.b[c].d = 1",
    "f().x = 1", "f()[1] = 1", "a:m().x = 1", "(a).b = 1", "(a)[1] = 1", "(a).b.c = 1", "((a)).b = 1", "(f()).x = 1",
    "('x').y = 1", "({}).x = 1", "a, b.c, d[1] = 1, 2, 3", "a.b, f().c = 1, 2", "a, (b).c = 1, 2", "f{}.x = 1", "f'x'.y = 1",
    "f(1)(2)[3].x = 4", "a, b:m'x'.c = 1",
    # ---- calls
    "f()", "f(1)", "f(1, 2)", "f(nil)", "f{}", "f{1}", "f'x'", 'f"x"', "f[[x]]", "f()()", "f(){}", "f''''", "a.b()", "a.b.c(1)",
    "a[1]()", "a:m()", "a:m(1)", "a:m{}", "a:m'x'", "a.b:m()", "a:m():n()", "a:m().b()", "(f)()", "(f)'x'", "(f){}", "(f):m()",
    "('x'):upper()", "({}):m()", "(function() end)()", "f\n(x)", "f\n(x)\n(y)", "a.b:c\"x\".d{1}[2]()", "x = a.b:c\"x\".d{1}[2]",
    "f(g(h()))", "f(function() end)", "f{g()}", "f(...)", "(...)()", "f(a, b, ...)", "((f))()", "(f or g)()", "(-f)()",
    # ---- loops
    "while x do end", "while true do break end", "while x do break; end", "while f() do x = 1 end", "while x do break break end",
    "repeat until x", "repeat x = 1 until x", "repeat local x = f() until x", "repeat until f()", "repeat break until true",
    "for i = 1, 2 do end", "for i = 1, 2, 3 do end", "for i = a, b, c do f(i) end", "for i = f(), g() do end",
    "for k in x do end", "for k, v in pairs(t) do end", "for a, b, c in f, s, v do end", "for k in x, y do break end",
    "for i = 1, 2 do for j = 1, 2 do end end", "while x do while y do end end", "repeat repeat until x until y",
    # ---- if
    "if x then end", "if x then y = 1 end", "if x then else end", "if x then y = 1 else y = 2 end", "if x then elseif y then end",
    "if x then elseif y then else end", "if x then elseif y then elseif z then end", "if x then if y then end end",
    "if x then if y then end else end", "if x then elseif y then if z then else end else end", "if not x then end",
    "if x then" + " elseif y then" * 1000 + " end", "if x then" + " elseif y then z = 1" * 100 + " else end",
    # ---- functions
    "function f() end", "function f(a) end", "function f(a, b) end", "function f(...) end", "function f(a, ...) end",
    "function f(a, b, ...) end", "function a.b() end", "function a.b.c() end", "function a:m() end", "function a.b:m(x, ...) end",
    "local function f() end", "local function f(a, b) return a end", "local function f() return f() end", "x = function() end",
    "x = function(a, ...) return ... end", "f = function() end g = 1", "local f = function() end", "function f() return end",
    "function f() function g() end end", "function f() local function g() end end", "x = function() return function() end end",
    # ---- local
    "local x", "local x = 1", "local x, y", "local x, y = 1", "local x, y = 1, 2", "local x <const> = 1", "local x <const>",
    "local x <const>, y = 1, 2", "local x, y <const> = 1, 2", "local x <const>, y <const> = 1, 2", "local x < const > = 1",
    "local const = 1", "local const <const> = 1", "local x = y < z", "local x; (f)()", "local x (f)()", "local x\n(f)()", "local x = {}",
    "local x = 1 local y = 2", "local x local y", "local x = ...", "local close = 1", "local x <const> (f)()",
    # ---- where a statement ends
    "x = 1 (f)()", "x = {} (f)()", "x = 'a' (f)()", "x = nil (f)()", "x = ... (f)()", "x = function() end (f)()", "x = y; (f)()",
    "f(); (g)()", "f() (g)()", "do end (f)()", "while x do end (f)()", "if x then end (f)()", "for k in x do end (f)()",
    "function f() end (g)()", "local function f() end (g)()", "repeat until 1 (f)()", "repeat until x; (f)()", ";(f)()", "x = a + 1 (f)()",
    "x = -1 (f)()", "x = 1 (b).c = 1", "return (f)", "return f (x)", "x = y z = 1", "x = f y()", "x = f 'a' y = 1", "x = a.b c = 1",
    # ---- expressions
    "x = nil", "x = true", "x = false", "x = 0", "x = 0xff", "x = 9223372036854775807", "x = 'a'", "x = [[a]]", "x = [==[a]==]",
    "x = ...", "x = {}", "x = (1)", "x = ((1))", "x = a.b", "x = a[1]", "x = a()", "x = a:m()", "x = (a).b", "x = (a)()", "x = (a):m()",
    "x = a.b.c.d", "x = a[b[c[d]]]", "x = a(b(c(d)))", "x = not a", "x = #a", "x = -a", "x = ~a", "x = not not a", "x = - - a", "x = -~-~a",
    "x = not a == b", "x = -x .. y", "x = #a + #b", "x = a - -b", "x = a ~ ~b", "x = a ~= ~b", "x = -a",
    "x = 2 + 3 * 4 .. 'x'", "x = a or b and c", "x = (a or b) and c", "x = a < b == c", "x = a .. b .. c", "x = 'a'..1 ..'b'",
    "x = 1 + f()", "x = f() + 1", "x = {} == {}", "x = function() end == nil", "x = 'a' < 'b'", "x = a // b % c", "x = 1 << 2 >> 3",
    "x = a & b | c ~ d", "x = not (a and b)", "x = # 'abc'", "x = -(1)", "x = - 1 - - 1",
    # ---- tables
    "x = {1}", "x = {1, 2}", "x = {1, 2,}", "x = {1; 2}", "x = {1; 2;}", "x = {1, 2; 3}", "x = {a = 1}", "x = {a = 1, b = 2}",
    "x = {[1] = 2}", "x = {[a] = b, c, d = e}", "x = {a}", "x = {a, b}", "x = {a.b}", "x = {a()}", "x = {a == b}", "x = {f{}}",
    "x = {...}", "x = {f(), ...}", "x = {{}, {{}}}", "x = {function() end}", "x = {(a)}", "x = {[f()] = g(), [{}] = {}}", "x = {a = {b = {c = 1}}}",
    "x = {-1}", "x = {not a}", "x = {a = 1; b = 2; 3}", "x = {[ [[k]] ] = 1}", "x = {a = a}", "x = {a 'b'}",
    # ---- length deepens nothing
    "x = 1 " * 1000, "f(" + "1, " * 1000 + "1)", "x = {" + "1, " * 1000 + "}", "local " + "a, " * 100 + "a", "x" + ", x" * 1000 + " = 1",
    "return 1" + ", 1" * 1000, "do end " * 1000, "function f(" + "a, " * 100 + "...) end", "function a" + ".b" * 20 + "() end",
    # ---- goto and labels
    "goto x ::x::", "::x::", "::x:: goto x", "::x:: ::y::", "::x::;::y::", "; ::x:: ;", "goto x; ::x::", "goto x;; ::x::;", "goto\nx\n::\nx\n::",
    "do goto x ::x:: end", "do goto x end ::x::", "while y do goto x ::x:: end", "repeat goto x ::x:: until y", "repeat ::x:: until y",
    "if y then goto x end ::x::", "if y then goto x else goto x end ::x::", "if y then ::x:: goto x elseif z then end", "if y then elseif z then goto x ::x:: end",
    "for i = 1, 2 do goto x ::x:: end", "for k in y do goto x ::x:: end", "function f() goto x ::x:: end", "local function f() ::x:: goto x end",
    "x = function() goto y ::y:: end", "goto x (f)() ::x::", "goto x f() ::x::", "::x:: (f)()", "::x:: f()", "::x:: local y", "local y ::x::",
    "f()::x::", "y = z::x::", "y = z ::x:: goto x", "local y = 1::x::", "::x:: return", "::x:: return 1;", "goto x ::x:: return", "while y do break goto x ::x:: end",
    "while y do goto x break ::x:: end", "goto a ::a:: ::b:: goto b", "goto x ; ; ::x:: ; ;", "goto goto_ ::goto_::", "goto const ::const::",
    "for i = 1, 3 do if i == 2 then goto continue end f(i) ::continue:: end", "goto x" + " ;" * 100 + " ::x::", "::x::" + " goto x" * 100,
    # ---- two kinds of names where one token later decides
    "for x = 1, 2 do end", "for x in y do end", "x = {y = 1}", "x = {y}", "local function x() end", "local x = 1",
]

REFUSED = [
    # ---- floats
    ("print(2/1)", "1: float operator"), ("x = 1 / 2", "1: float operator"), ("x = 2^3", "1: float operator"), ("x = a ^ b", "1: float operator"),
    ("x = 1 +\n/ 2", "2: float operator"), ("/", "1: float operator"), ("^", "1: float operator"), ("x = /", "1: float operator"),
    ("x = (1)\n/ 2", "2: float operator"), ("x = f()\n^ 2", "2: float operator"), ("x = -2 ^ 2", "1: float operator"), ("local x\n/", "2: float operator"),
    ("x = 1\n/ 2 / 3", "2: float operator"), ("do\n/", "2: float operator"), ("f(\n^", "2: float operator"),
    # ---- goto and labels
    ("goto", "1: unexpected end"), ("x = 1 goto", "1: unexpected end"), ("goto\n1", "2: unexpected '1'"), ("goto 'x'", "1: unexpected ''x''"),
    ("goto\nend", "2: unexpected 'end'"), ("do goto end", "1: unexpected 'end'"), ("goto goto", "1: unexpected 'goto'"), ("goto = 1", "1: unexpected '='"),
    ("goto x, y ::x::", "1: unexpected ','"), ("goto x.y ::x::", "1: unexpected '.'"), ("goto x\n= 1", "2: unexpected '='"), ("goto x\n()", "2: unexpected ')'"),
    ("goto (x) ::x::", "1: unexpected '('"), ("goto ::x::", "1: unexpected '::'"), ("goto ; x ::x::", "1: unexpected ';'"), ("x = goto", "1: unexpected 'goto'"),
    ("local goto", "1: unexpected 'goto'"), ("a.goto = 1", "1: unexpected 'goto'"), ("function goto() end", "1: unexpected 'goto'"), ("f(goto x)", "1: unexpected 'goto'"),
    ("::", "1: unexpected end"), ("::x", "1: unexpected end"), ("::x:", "1: unexpected ':'"), ("::x: :", "1: unexpected ':'"), (": :x::", "1: unexpected ':'"),
    ("::x\ny = 1", "2: unexpected 'y'"), ("::x.y::", "1: unexpected '.'"), ("::1::", "1: unexpected '1'"), ("::end::", "1: unexpected 'end'"), ("::goto::", "1: unexpected 'goto'"),
    ("::::", "1: unexpected '::'"), ("::x::\n::", "2: unexpected end"), ("::x:: = 1", "1: unexpected '='"), ("a\n::b", "2: unexpected '::'"), ("::x, y::", "1: unexpected ','"),
    ("return\n::x::", "2: unexpected '::'"), ("return 1\n::x::", "2: unexpected '::'"), ("return 1\ngoto x", "2: unexpected 'goto'"), ("return;\n::x::", "2: unexpected '::'"),
    ("do return\n::x:: end", "2: unexpected '::'"), ("do\n::x end", "2: unexpected 'end'"), ("x = ::y::", "1: unexpected '::'"), ("goto x\n/", "2: float operator"),
    ("goto\n^", "2: float operator"), ("::x\n/", "2: float operator"), ("if x then\n::y end", "2: unexpected 'end'"), ("break goto\nuntil x", "2: unexpected 'until'"),
    # ---- attributes
    ("local x <close> = 1", "1: unknown attribute"), ("local x <\nclose> = 1", "2: unknown attribute"), ("local x <Const>", "1: unknown attribute"),
    ("local x <foo>", "1: unknown attribute"), ("local x, y <\nclose>", "2: unknown attribute"), ("local x <const>, y <\nconstant>", "2: unknown attribute"),
    ("local x <const <", "1: unexpected '<'"), ("local x <'const'>", "1: unexpected ''const''"), ("local x <>", "1: unexpected '>'"),
    ("local x <end>", "1: unexpected 'end'"), ("local x <goto>", "1: unexpected 'goto'"), ("local x </>", "1: float operator"),
    ("local x <", "1: unexpected end"), ("local x <const", "1: unexpected end"), ("local x <const, y", "1: unexpected ','"),
    ("local x <const> <", "1: unexpected '<'"), ("local x <const>= 1", "1: unexpected '>='"), ("x <close>", "1: unexpected '<'"),
    ("local function f <const>", "1: unexpected '<'"), ("for x <const> = 1, 2 do end", "1: unexpected '<'"), ("local x <1>", "1: unexpected '1'"),
    ("local x <const> <close>", "1: unexpected '<'"), ("local x >", "1: unexpected '>'"),
    # ---- a token that no script goes on with
    ("x = = 1", "1: unexpected '='"), ("x == 1", "1: unexpected '=='"), ("= 1", "1: unexpected '='"), ("1", "1: unexpected '1'"), ("1 = x", "1: unexpected '1'"),
    ("'x'", "1: unexpected ''x''"), ("'x':f()", "1: unexpected ''x''"), ('"a b"', "1: unexpected '\"a b\"'"), ("[[x]]", "1: unexpected '[[x]]'"),
    ("{}", "1: unexpected '{'"), ("{}.x = 1", "1: unexpected '{'"), ("nil", "1: unexpected 'nil'"), ("...", "1: unexpected '...'"), (")", "1: unexpected ')'"),
    ("not x", "1: unexpected 'not'"), ("-x", "1: unexpected '-'"), (" #x", "1: unexpected '#'"), ("~x", "1: unexpected '~'"), ("and", "1: unexpected 'and'"),
    ("end", "1: unexpected 'end'"), ("else", "1: unexpected 'else'"), ("elseif x then end", "1: unexpected 'elseif'"), ("then", "1: unexpected 'then'"),
    ("until x", "1: unexpected 'until'"), ("in", "1: unexpected 'in'"), (",", "1: unexpected ','"), (".", "1: unexpected '.'"), (":", "1: unexpected ':'"),
    ("]", "1: unexpected ']'"), ("}", "1: unexpected '}'"), ("[", "1: unexpected '['"), ("..", "1: unexpected '..'"), ("or", "1: unexpected 'or'"),
    ("x 1", "1: unexpected '1'"), ("x y", "1: unexpected 'y'"), ("x nil", "1: unexpected 'nil'"), ("x + 1", "1: unexpected '+'"), ("x;", "1: unexpected ';'"),
    ("x end", "1: unexpected 'end'"), ("x..y", "1: unexpected '..'"), ("x -- y\n= = 1", "2: unexpected '='"), ("x\n\ny = 1", "3: unexpected 'y'"),
    ("x = 1 end", "1: unexpected 'end'"), ("x = 1, y = 2", "1: unexpected '='"), ("x = y = 1", "1: unexpected '='"), ("x, = 1", "1: unexpected '='"),
    ("x,", "1: unexpected end"), ("x, 1 = 1", "1: unexpected '1'"), ("x = 1,", "1: unexpected end"), ("x = ,1", "1: unexpected ','"), ("x = 1 2", "1: unexpected '2'"),
    ("x = )", "1: unexpected ')'"), ("x = (1", "1: unexpected end"), ("x = (", "1: unexpected end"), ("x = ()", "1: unexpected ')'"), ("x = (1, 2)", "1: unexpected ','"),
    ("x = 1)", "1: unexpected ')'"), ("x = (1))", "1: unexpected ')'"), ("x = a (b).c = 1", "1: unexpected '='"), ("x = a b", "1: unexpected end"), ("x = a 1", "1: unexpected '1'"), 
    ("x = a . 1", "1: unexpected '1'"), ("x = a.", "1: unexpected end"), ("x = a.end", "1: unexpected 'end'"), ("x = a..", "1: unexpected end"),
    ("x = a[]", "1: unexpected ']'"), ("x = a[1", "1: unexpected end"), ("x = a[1, 2]", "1: unexpected ','"), 
    ("x = 1[2]", "1: unexpected '['"), ("x = 'a'.b", "1: unexpected '.'"), ("x = {}.a", "1: unexpected '.'"), ("x = {}[1]", "1: unexpected '['"), ("x = {}()", "1: unexpected ')'"),
    ("x = nil.a", "1: unexpected '.'"), ("x = function() end.a", "1: unexpected '.'"), ("x = 'a' 'b'", "1: unexpected ''b''"), ("x = 'a':f()", "1: unexpected ':'"),
    ("x = -", "1: unexpected end"), ("x = not", "1: unexpected end"), ("x = 1 +", "1: unexpected end"), ("x = 1 + + 2", "1: unexpected '+'"), ("x = + 1", "1: unexpected '+'"),
    ("x = * 1", "1: unexpected '*'"), ("x = a not b", "1: unexpected 'not'"), ("x = a # b", "1: unexpected '#'"), ("x = 1 = 2", "1: unexpected '='"), ("x = a and", "1: unexpected end"),
    ("x = a or or b", "1: unexpected 'or'"), ("x = a ~ = b", "1: unexpected '='"), ("x = a < > b", "1: unexpected '>'"), ("x = a : b", "1: unexpected end"),
    # ---- a statement that begins with a name or a parenthesis
    ("x", "1: unexpected end"), ("a.b", "1: unexpected end"), ("a[1]", "1: unexpected end"), ("a:m", "1: unexpected end"), ("(a)", "1: unexpected end"), ("(f())", "1: unexpected end"),
    ("a.b\nx = 1", "2: unexpected 'x'"), ("a[1]\nx = 1", "2: unexpected 'x'"), ("(a)\nx = 1", "2: unexpected 'x'"), ("(a) = 1", "1: unexpected '='"), ("(a.b) = 1", "1: unexpected '='"),
    ("f() = 1", "1: unexpected '='"), ("a:m() = 1", "1: unexpected '='"), ("f'x' = 1", "1: unexpected '='"), ("f{} = 1", "1: unexpected '='"), ("f(), a = 1", "1: unexpected ','"),
    ("(a), b = 1", "1: unexpected ','"), ("a, f() = 1", "1: unexpected '='"), ("a, (b) = 1", "1: unexpected '='"), ("a, f(), b = 1", "1: unexpected ','"), ("a, b", "1: unexpected end"),
    ("a, b()", "1: unexpected end"), ("a, b\nc = 1", "2: unexpected 'c'"), ("a, b;", "1: unexpected ';'"), ("a, nil = 1", "1: unexpected 'nil'"), ("a, {} = 1", "1: unexpected '{'"),
    ("a, function", "1: unexpected 'function'"), ("a, 'x' = 1", "1: unexpected ''x''"), ("a:m.b()", "1: unexpected '.'"), ("a:m[1]()", "1: unexpected '['"), ("a:1()", "1: unexpected '1'"),
    ("a:m = 1", "1: unexpected '='"), ("a:m:n()", "1: unexpected ':'"), ("a:m", "1: unexpected end"), ("a:", "1: unexpected end"), ("x = a:m", "1: unexpected end"), ("x = a:m + 1", "1: unexpected '+'"),
    ("x = a:m.b", "1: unexpected '.'"), ("()", "1: unexpected ')'"), ("(", "1: unexpected end"), ("(1", "1: unexpected end"), ("(a, b)()", "1: unexpected ','"), ("(a)\n1", "2: unexpected '1'"),
    ("f() 1", "1: unexpected '1'"), ("f() + 1", "1: unexpected '+'"), ("f()\n= 1", "2: unexpected '='"), ("f(", "1: unexpected end"), ("f(1", "1: unexpected end"), ("f(1,", "1: unexpected end"),
    ("f(1,)", "1: unexpected ')'"), ("f(,1)", "1: unexpected ','"), ("f(1 2)", "1: unexpected '2'"), ("f(1;2)", "1: unexpected ';'"), ("f(a=1)", "1: unexpected '='"), ("f)", "1: unexpected ')'"),
    # ---- return stands last
    ("return 1 x = 1", "1: unexpected 'x'"), ("return\nx y", "2: unexpected 'y'"), ("return\nx()\ny()", "3: unexpected 'y'"),
    ("return;;", "1: unexpected ';'"), ("return 1;;", "1: unexpected ';'"), ("return;\nx = 1", "2: unexpected 'x'"), ("return 1\nlocal x", "2: unexpected 'local'"), ("return return", "1: unexpected 'return'"),
    ("do return 1 x = 1 end", "1: unexpected 'x'"), ("return 1,", "1: unexpected end"), ("return,", "1: unexpected ','"), ("return )", "1: unexpected ')'"), ("return end", "1: unexpected 'end'"),
    ("return else", "1: unexpected 'else'"), ("return until", "1: unexpected 'until'"), ("return = 1", "1: unexpected '='"), ("return x = 1", "1: unexpected '='"), ("return break", "1: unexpected 'break'"),
    ("return until x", "1: unexpected 'until'"), ("return if", "1: unexpected 'if'"), ("return\nwhile", "2: unexpected 'while'"), ("do return elseif", "1: unexpected 'elseif'"),
    ("repeat return end", "1: unexpected 'end'"), ("while x do return until", "1: unexpected 'until'"),
    # ---- what is left open at the end
    ("local x =", "1: unexpected end"), ("local", "1: unexpected end"), ("local x,", "1: unexpected end"), ("local function", "1: unexpected end"), ("local function f", "1: unexpected end"),
    ("local function f(", "1: unexpected end"), ("local function f()", "1: unexpected end"), ("function", "1: unexpected end"), ("function f", "1: unexpected end"), ("function f.", "1: unexpected end"),
    ("function f:", "1: unexpected end"), ("function f:m", "1: unexpected end"), ("function f(", "1: unexpected end"), ("function f(a", "1: unexpected end"), ("function f(a,", "1: unexpected end"),
    ("function f()", "1: unexpected end"), ("function f()\nx = 1\n", "3: unexpected end"), ("x = function", "1: unexpected end"), ("x = function()", "1: unexpected end"), ("do", "1: unexpected end"),
    ("do\n\n", "3: unexpected end"), ("do do end", "1: unexpected end"), ("while", "1: unexpected end"), ("while x", "1: unexpected end"), ("while x do", "1: unexpected end"), ("repeat", "1: unexpected end"),
    ("repeat until", "1: unexpected end"), ("repeat x = 1", "1: unexpected end"), ("if", "1: unexpected end"), ("if x", "1: unexpected end"), ("if x then", "1: unexpected end"), ("if x then else", "1: unexpected end"),
    ("if x then elseif", "1: unexpected end"), ("if x then elseif y", "1: unexpected end"), ("if x then elseif y then", "1: unexpected end"), ("for", "1: unexpected end"), ("for i", "1: unexpected end"),
    ("for i =", "1: unexpected end"), ("for i = 1", "1: unexpected end"), ("for i = 1,", "1: unexpected end"), ("for i = 1, 2", "1: unexpected end"), ("for i = 1, 2, 3", "1: unexpected end"),
    ("for i = 1, 2 do", "1: unexpected end"), ("for k in", "1: unexpected end"), ("for k,", "1: unexpected end"), ("for k, v", "1: unexpected end"), ("for k in x", "1: unexpected end"), ("for k in x do", "1: unexpected end"),
    ("x = {", "1: unexpected end"), ("x = {1", "1: unexpected end"), ("x = {1,", "1: unexpected end"), ("x = {a =", "1: unexpected end"), ("x = {[1]", "1: unexpected end"), ("x = {[1] =", "1: unexpected end"),
    ("x = {[", "1: unexpected end"), ("x = {a", "1: unexpected end"), ("x =", "1: unexpected end"), ("x = function() return", "1: unexpected end"), ("f{", "1: unexpected end"), ("f(function() end", "1: unexpected end"),
    # ---- loops and branches
    ("while x then end", "1: unexpected 'then'"), ("while do end", "1: unexpected 'do'"), ("while x do end end", "1: unexpected 'end'"), ("while x = 1 do end", "1: unexpected '='"), ("while x, y do end", "1: unexpected ','"),
    ("repeat end", "1: unexpected 'end'"), ("repeat until do", "1: unexpected 'do'"), ("repeat x until y", "1: unexpected 'until'"), ("if then end", "1: unexpected 'then'"), ("if x do end", "1: unexpected 'do'"),
    ("if x then else else end", "1: unexpected 'else'"), ("if x then else elseif y then end", "1: unexpected 'elseif'"), ("if x then elseif else end", "1: unexpected 'else'"), ("if x then until", "1: unexpected 'until'"),
    ("if x = 1 then end", "1: unexpected '='"), ("if x then end else", "1: unexpected 'else'"), ("for 1 = 1, 2 do end", "1: unexpected '1'"), ("for a.b in x do end", "1: unexpected '.'"), ("for i = 1 do end", "1: unexpected 'do'"),
    ("for i = 1, 2, 3, 4 do end", "1: unexpected ','"), ("for i, j = 1, 2 do end", "1: unexpected '='"), ("for i do end", "1: unexpected 'do'"), ("for i in do end", "1: unexpected 'do'"), ("for i == 1, 2 do end", "1: unexpected '=='"),
    ("for i, in x do end", "1: unexpected 'in'"), ("for (i) in x do end", "1: unexpected '('"), ("for i = 1, 2 then", "1: unexpected 'then'"), ("for i = , 2 do", "1: unexpected ','"), ("for i in x = 1", "1: unexpected '='"),
    ("break 1", "1: unexpected '1'"), ("do else end", "1: unexpected 'else'"), ("do end end", "1: unexpected 'end'"),
    # ---- functions and declared names
    ("function() end", "1: unexpected '('"), ("function 1() end", "1: unexpected '1'"), ("function a[1]() end", "1: unexpected '['"), ("function a:b.c() end", "1: unexpected '.'"), ("function a:b:c() end", "1: unexpected ':'"),
    ("function (a)() end", "1: unexpected '('"), ("function f(1) end", "1: unexpected '1'"), ("function f(a b) end", "1: unexpected 'b'"), ("function f(a,) end", "1: unexpected ')'"), ("function f(..., a) end", "1: unexpected ','"),
    ("function f(... a) end", "1: unexpected 'a'"), ("function f(a.b) end", "1: unexpected '.'"), ("function f(a = 1) end", "1: unexpected '='"), ("function f(self...) end", "1: unexpected '...'"), ("function f{} end", "1: unexpected '{'"),
    ("function f = 1", "1: unexpected '='"), ("local function f.g() end", "1: unexpected '.'"), ("local function f:g() end", "1: unexpected ':'"), ("local function () end", "1: unexpected '('"), ("x = function f() end", "1: unexpected 'f'"),
    ("x = function() end end", "1: unexpected 'end'"), ("local 1", "1: unexpected '1'"), ("local x.y = 1", "1: unexpected '.'"), ("local x[1] = 1", "1: unexpected '['"), ("local (x) = 1", "1: unexpected '('"), ("local x 1", "1: unexpected '1'"),
    ("local x,, y", "1: unexpected ','"), ("local x = 1,", "1: unexpected end"), ("local x == 1", "1: unexpected '=='"), ("local end", "1: unexpected 'end'"), ("local x y", "1: unexpected end"), ("local x\n\ny\n", "4: unexpected end"),
    ("local ... = 1", "1: unexpected '...'"), ("local x = local", "1: unexpected 'local'"), ("local nil", "1: unexpected 'nil'"), ("local x = y = 1", "1: unexpected '='"), ("local x ()", "1: unexpected ')'"),
    # ---- tables
    ("x = {,}", "1: unexpected ','"), ("x = {;}", "1: unexpected ';'"), ("x = {1,,}", "1: unexpected ','"), ("x = {1 2}", "1: unexpected '2'"), ("x = {a = }", "1: unexpected '}'"), ("x = {[1]}", "1: unexpected '}'"),
    ("x = {[1] 2}", "1: unexpected '2'"), ("x = {[] = 1}", "1: unexpected ']'"), ("x = {1 = 2}", "1: unexpected '='"), ("x = {a.b = 1}", "1: unexpected '='"), ("x = {'a' = 1}", "1: unexpected '='"), ("x = {(a) = 1}", "1: unexpected '='"),
    ("x = {a = b = c}", "1: unexpected '='"), ("x = {1)", "1: unexpected ')'"), ("x = {a == }", "1: unexpected '}'"), ("x = {local}", "1: unexpected 'local'"), ("x = {[1 = 2}", "1: unexpected '='"), ("x = {a: b}", "1: unexpected '}'"),
    ("x = {1}}", "1: unexpected '}'"), ("x = {[1]: 2}", "1: unexpected ':'"),
    # ---- the token's own bytes, and its line
    ("x = = \"a\\tb\"", "1: unexpected '='"), ("\"a\\tb\"", "1: unexpected '\"a\\tb\"'"), ("x 0x1F", "1: unexpected '0x1F'"), ("x 00012", "1: unexpected '00012'"), ("x = 1 'it\\'s'", "1: unexpected ''it\\'s''"),
    ("[==[a]]b]==]", "1: unexpected '[==[a]]b]==]'"), ("\n\n[[a\nb]]\n", "3: unexpected '[[a\nb]]'"), ("x = 1\r\ny = = 2", "2: unexpected '='"), ("--[[\n\n]] x = = 1", "3: unexpected '='"), ("#!lua\n= 1", "2: unexpected '='"),
    ("x =\n\n\n", "4: unexpected end"), ("x = -- the end", "1: unexpected end"), ("x = --[[\n]]", "2: unexpected end"), ("x y_1", "1: unexpected 'y_1'"), ("x = 'a\\\nb' =", "2: unexpected '='"), ("x = 1 \"\\z  \n  a\"", "1: unexpected '\"\\z  \n  a\"'"),
    ("x <= 1", "1: unexpected '<='"), ("x // 1", "1: unexpected '//'"), ("x << 1", "1: unexpected '<<'"), ("x ~= 1", "1: unexpected '~='"), ("f(...) ...", "1: unexpected '...'"), ("x >= 1", "1: unexpected '>='"),
]


# ---- the limit of depth
# The main block has a depth of at most 60, so an expression in it has one of at most 59. Each entry: what opens a level and what
# closes it, as words; what stands innermost; how many levels fit; and the word of the next level's opening that is refused, from 0.
# In the script each word stands on a line of its own.
LEVELS_OF = [
    # begin, open, innermost, close, levels that fit, refused word
    ("return", "(", "1", ")", 58, 0),
    ("x =", "(", "1", ")", 58, 0),
    ("local x =", "(", "1", ")", 58, 0),
    ("return", "{", "", "}", 59, 0),
    ("return", "{ x =", "1", "}", 58, 1),
    ("return", "{ [", "1", "] = 1 }", 58, 1),
    ("return", "{ [ 1 ] =", "1", "}", 58, 1),
    ("return", "a [", "1", "]", 58, 1),
    ("return", "f (", "1", ")", 58, 1),
    ("return", "f {", "", "}", 29, 1),
    ("return", "a : m (", "1", ")", 58, 1),
    ("return", "-", "1", "", 58, 0),
    ("return", "not", "1", "", 58, 0),
    ("return", "#", "1", "", 58, 0),
    ("return", "~", "1", "", 58, 0),
    ("return 1", "+ 1", "", "", 58, 0),
    ("x = 1", "+ 1", "", "", 58, 0),
    ("return 1", "* 1", "", "", 58, 0),
    ("return 1", "// 1", "", "", 58, 0),
    ("return 1", "== 1", "", "", 58, 0),
    ("return 1", "<< 1", "", "", 58, 0),
    ("return 1", "& 1", "", "", 58, 0),
    ("return 1", "~ 1", "", "", 58, 0),
    ("return 1", "| 1", "", "", 58, 0),
    ("return 1", "and 1", "", "", 58, 0),
    ("return 1", "or 1", "", "", 58, 0),
    ("return 1", ".. 1", "", "", 58, 0),
    ("return a", ". b", "", "", 58, 0),
    ("return a", "[ 1 ]", "", "", 58, 0),
    ("return a", "( )", "", "", 58, 0),
    ("return a", "'x'", "", "", 58, 0),
    ("return a", "{ }", "", "", 58, 0),
    ("return a", ": m ( )", "", "", 58, 0),
    ("a", ". b", "= 1", "", 58, 0),
    ("a", "[ 1 ]", "= 1", "", 58, 0),
    ("a", "( )", "", "", 58, 0),
    ("a", ": m 'x'", "", "", 58, 0),
    ("return", "function ( ) return", "1", "end", 29, 0),
    ("return", "function ( ) return", "", "end", 29, 0),
    ("return", "{ f (", "1", ") }", 29, 1),
    ("", "function f ( )", "", "end", 29, 0),
    ("", "local function f ( )", "", "end", 59, 1),
    ("", "do", "", "end", 59, 0),
    ("", "while x do", "", "end", 59, 0),
    ("", "repeat", "", "until x", 59, 0),
    ("", "if x then", "", "end", 59, 0),
    ("", "if x then else", "", "end", 59, 0),
    ("", "if x then elseif y then", "", "end", 59, 0),
    ("", "for i = 1 , 2 do", "", "end", 59, 0),
    ("", "for k in x do", "", "end", 59, 0),
]


def words(*parts):
    return [word for part in parts for word in part.split()]


def limit_rows():
    """For each entry the script that fits, and the one of a level more."""
    for begin, opens, inner, closes, levels, refused in LEVELS_OF:
        for count in (levels, levels + 1):
            text = words(begin, *[opens] * count, inner, *[closes] * count)
            line = len(words(begin, *[opens] * levels)) + refused + 1
            yield "\n".join(text), None if count == levels else f"{line}: nesting too deep"


def inside(blocks, text):
    """The text in so many blocks, one on each line: a statement there has room for a depth of 59 less their number."""
    return "do\n" * blocks + text + " end" * blocks


# Where little room is left: the blocks round a script, the script, and None or the line in it and the text.
ROOM = [
    # no room for an expression
    (59, ";", None), (59, "local x", None), (59, "local x <const>", None), (59, "return", None), (59, "return;", None),
    (59, "\nx", "2: nesting too deep"), (59, "\n(", "2: nesting too deep"), (59, "local x\n= 1", "2: nesting too deep"), (59, "return\n1", "2: nesting too deep"),
    (59, "return\n{", "2: nesting too deep"), (59, "return\n-", "2: nesting too deep"), (59, "return\nfunction", "2: nesting too deep"), (59, "return\n'x'", "2: nesting too deep"),
    (59, "\ndo", "2: nesting too deep"), (59, "\nwhile", "2: nesting too deep"), (59, "\nrepeat", "2: nesting too deep"), (59, "\nif", "2: nesting too deep"), (59, "\nfor", "2: nesting too deep"),
    (59, "\nfunction", "2: nesting too deep"), (59, "local\nfunction", "2: nesting too deep"), (59, "return\nnil", "2: nesting too deep"), (59, "return\n...", "2: nesting too deep"), (59, "return\n(", "2: nesting too deep"),
    # what no script goes on with is no matter of depth
    (59, "\n)", "2: unexpected ')'"), (59, "\n= 1", "2: unexpected '='"), (59, "return\n)", "2: unexpected ')'"), (59, "local x <\nclose>", "2: unknown attribute"), (59, "\n/", "2: float operator"),
    (59, "return\n^", "2: float operator"), (59, "\ngoto 1", "2: unexpected '1'"), (59, "return\n::", "2: unexpected '::'"), (59, "goto x ::x::", None), (59, "::x:: goto x", None), (59, "::x::\ny", "2: nesting too deep"), (59, "\nelse", "2: unexpected 'else'"), (59, "local\n1", "2: unexpected '1'"),
    # room for a depth of one
    (58, "x = 1", None), (58, "x, y = 1, 2", None), (58, "return x, 1, 'a', nil, true, ...", None), (58, "local x = {}", None), (58, "do end", None), (58, "while x do end", None), (58, "while x do break end", None), (58, "local function f() end", None),
    (58, "for i = 1, 2 do end", None), (58, "for k, v in x, y do end", None), (58, "if x then elseif y then else end", None), (58, "repeat until x", None),
    (58, "x\n()", "2: nesting too deep"), (58, "x\n.y = 1", "2: nesting too deep"), (58, "x\n[1] = 1", "2: nesting too deep"), (58, "x\n:m()", "2: nesting too deep"), (58, "x\n'a'", "2: nesting too deep"), (58, "x\n{}", "2: nesting too deep"),
    (58, "x, y\n.z = 1", "2: nesting too deep"), (58, "x = 1\n+ 1", "2: nesting too deep"), (58, "x =\n-1", "2: nesting too deep"), (58, "x = {\n1}", "2: nesting too deep"), (58, "x =\nfunction", "2: nesting too deep"), (58, "\nfunction", "2: nesting too deep"),
    (58, "\n(f)()", "2: nesting too deep"), (58, "x = a\n()", "2: nesting too deep"), (58, "x = a\n.b", "2: nesting too deep"), (58, "x =\n(1)", "2: nesting too deep"), (58, "local function f()\nlocal x\n= 1 end", "3: nesting too deep"),
    (58, "x\n= = 1", "2: unexpected '='"), (58, "x = 1\n/ 1", "2: float operator"), (58, "x\n+", "2: unexpected '+'"),
    # room for a depth of two
    (57, "f()", None), (57, "a.b = 1", None), (57, "a:m()", None), (57, "x = 1 + 1", None), (57, "function f() end", None), (57, "x = function() end", None), (57, "x = {1, a = 1, [1] = 1}", None), (57, "a, b.c = 1", None), (57, "f'x'", None),
    (57, "f()\n()", "2: nesting too deep"), (57, "f()\n.x = 1", "2: nesting too deep"), (57, "a.b\n()", "2: nesting too deep"), (57, "a, f\n().x = 1", "2: nesting too deep"), (57, "a, f\n:m().x = 1", "2: nesting too deep"), (57, "a, f\n'x'.y = 1", "2: nesting too deep"),
    (57, "a, f\n{}.x = 1", "2: nesting too deep"), (57, "\n(f)()", "2: nesting too deep"), (57, "f(a\n())", "2: nesting too deep"), (57, "function f\n.g() end", None), (57, "function f.g\n.h() end", "2: nesting too deep"), (57, "function f:g() end", None),
    (57, "function f.g\n:h() end", "2: nesting too deep"), (57, "x = function()\nx = 1 end", "2: nesting too deep"), (57, "function f()\nreturn\n1 end", "3: nesting too deep"), (57, "a, \n(f).x = 1", "2: nesting too deep"), (57, "1", "1: unexpected '1'"),
    # room for a depth of three
    (56, "(f)()", None), (56, "(a).b = 1", None), (56, "f().x = 1", None), (56, "f()()", None), (56, "a, f().x = 1", None), (56, "a, (b).c = 1", None), (56, "a, f:m().x = 1", None), (56, "x = (1) + 1", None), (56, "x = function() x = 1 end", None),
    (56, "(f)()\n()", "2: nesting too deep"), (56, "(f()\n)", "1: nesting too deep"), (56, "(-\n1)()", "1: nesting too deep"), (56, "a, (b).c\n.d = 1", "2: nesting too deep"), (56, "a, f()\n()", "2: nesting too deep"), (56, "(a)\n= 1", "2: unexpected '='"),
    (56, "(a\n.b)()", "2: nesting too deep"), (56, "((\na))()", "1: nesting too deep"), (56, "a, f\n(g\n()).x = 1", "3: nesting too deep"),
]


def room_rows():
    for blocks, text, verdict in ROOM:
        if verdict is not None:
            line, rest = verdict.split(":", 1)
            verdict = f"{blocks + int(line)}:{rest}"
        yield inside(blocks, text), verdict


def level(operator):
    return next(number for number, names in enumerate(LEVELS) if operator in names.split())


def precedence_rows():
    """Each pair of operators behind a first operand of the depth 58. In `a x b y c` that operand is one level down where y binds more
    than x, and two where it doesn't, which is too deep at y."""
    operators = [operator for names in LEVELS for operator in names.split()]
    for first in operators:
        for second in operators:
            right = level(second) > level(first) or first == second == ".."
            yield f"return {parens(57)} {first} 1\n{second} 1", None if right else "2: nesting too deep"
        for unary in UNARY:
            # the unary operator binds more, so the second operand is one level down
            yield f"return {unary} 1 {first} {parens(57)}", None
            yield f"return {unary} 1 {first}\n{parens(58)}", "2: nesting too deep"


def mixed_rows():
    """Around the limit, where it counts on which side what is deep stands."""
    concats = "1" + " .. 1" * 57
    yield f"return {parens(57)} + 1", None
    yield f"return {parens(58)}\n+ 1", "2: nesting too deep"
    yield f"return 1 + {parens(57)}", None
    yield f"return 1 +\n{parens(58)}", "2: nesting too deep"
    yield f"return {parens(57)}\n.. 1", None
    yield f"return {parens(58)}\n.. 1", "2: nesting too deep"
    yield f"return {concats} + 1", None
    yield f"return {concats} == 1", None
    yield f"return {concats} .. 1\n+ 1", "2: nesting too deep"
    yield f"return {concats} .. 1\n== 1", "2: nesting too deep"
    yield f"return f({parens(57)}, 1)", None
    yield f"return f(1, {parens(57)})", None
    yield f"return {{{parens(57)}, 1}}", None
    yield f"return {{[{parens(57)}] = {parens(57)}}}", None
    yield f"return a[{parens(57)}]\n.b", "2: nesting too deep"
    yield f"f({parens(57)})", None
    yield f"f({parens(57)})\n()", "2: nesting too deep"
    yield f"x, y[{parens(57)}] = 1", None
    yield f"f({parens(58)})", "1: nesting too deep"
    yield f"while {parens(58)} do end", None
    yield f"while\n{parens(59)} do end", "2: nesting too deep"
    yield f"for i = 1, {parens(58)} do end", None
    yield f"if x then elseif {parens(58)} then end", None
    yield f"repeat until {parens(58)}", None
    yield f"return {parens(58)}, {parens(58)}, {parens(58)}", None


def rows():
    """All rows: a script, and None where it is accepted, else 'LINE: TEXT'."""
    yield from ((script, None) for script in ACCEPTED)
    yield from REFUSED
    yield from limit_rows()
    yield from room_rows()
    yield from precedence_rows()
    yield from mixed_rows()
