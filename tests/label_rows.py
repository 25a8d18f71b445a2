"""Scripts with gotos and labels, and what the rules of labels say of each: the Lua 5.4 manual, sections 3.3.4 and 3.5.

Each row is a script and None where it is accepted, else 'LINE: TEXT' of the first place in the text that breaks a rule. The place of a
goto is that of its word, so the rows have a goto and its name on one line. None comes from the program's own answers.
"""

INTO = "goto jumps into the scope of a local"
BREAK = "break outside a loop"
CONSTANT = "assignment to a constant"
LOCALS = "too many local variables"
ENV = "_ENV is not supported"


def missing(name):
    return f"no visible label '{name}'"


def twice(name):
    return f"label '{name}' already defined"


PLAIN = [
    # ---- a label of the same block, before the goto and after it
    ("::a:: goto a", None),
    ("goto a ::a::", None),
    ("goto a ::a:: x = 1", None),
    ("goto a x = 1 ::a:: x = 2", None),
    ("::a:: x = 1 goto a", None),
    ("do goto a ::a:: end", None),
    ("goto a ::b:: ::a::", None),
    ("goto a; ::a::; goto b; ::b::;", None),
    ("::a:: ::b:: goto a", None),
    ("goto y", f"1: {missing('y')}"),
    ("x = 1\ngoto y", f"2: {missing('y')}"),
    ("::x::\ngoto y", f"2: {missing('y')}"),
    ("goto name ::nam::", f"1: {missing('name')}"),
    ("goto nam ::name::", f"1: {missing('nam')}"),
    ("goto a goto b ::b::", f"1: {missing('a')}"),
    ("::a::\n::a::", f"2: {twice('a')}"),
    ("::a:: x = 1\n::a:: y = 2", f"2: {twice('a')}"),
    ("::a:: ::b::\n::a::", f"2: {twice('a')}"),
    ("::long_name:: ::long_name::", f"1: {twice('long_name')}"),
    ("::a:: ::b:: ::c:: goto c", None),
]

BLOCKS = [
    # ---- out of blocks, and of loops
    ("do goto a end ::a::", None),
    ("::a:: do goto a end", None),
    ("do do do goto a end end end ::a::", None),
    ("for i = 1, 3 do if i == 2 then goto continue end print(i) ::continue:: end", None),
    ("while x do goto out end ::out::", None),
    ("for i = 1, 2 do for j = 1, 2 do goto out end end ::out::", None),
    ("for k, v in x do while v do goto out end end ::out:: x = 1", None),
    ("repeat goto out until x ::out::", None),
    ("if x then goto a elseif y then goto b else goto c end ::a:: ::b:: ::c::", None),
    ("while x do if y then goto next end z = 1 ::next:: end", None),
    ("for i = 1, 2 do break goto a ::a:: end", None),
    ("while x do if y then break else goto out end end ::out::", None),
    ("goto a while x do break end ::a:: while x do break end", None),
    ("while x do goto a end\nbreak ::a::", f"2: {BREAK}"),
    ("do goto a\nbreak end ::a::", f"2: {BREAK}"),
    # ---- a label isn't visible outside its block
    ("goto a do ::a:: end", f"1: {missing('a')}"),
    ("do ::a:: end goto a", f"1: {missing('a')}"),
    ("if x then ::a:: else goto a end", f"1: {missing('a')}"),
    ("while x do ::a:: end\ngoto a", f"2: {missing('a')}"),
    ("repeat ::a:: until x\ngoto a", f"2: {missing('a')}"),
    ("for i = 1, 2 do ::a:: end\ngoto a", f"2: {missing('a')}"),
    ("do goto a end do ::a:: end", f"1: {missing('a')}"),
    ("do ::a:: end do goto a end", f"1: {missing('a')}"),
    # ---- the same name in blocks side by side, and in one after an inner one
    ("do ::a:: end do ::a:: end", None),
    ("do ::a:: goto a end do ::a:: goto a end", None),
    ("do ::a:: end ::a::", None),
    ("do goto a ::a:: end goto a ::a::", None),
    ("if x then ::a:: elseif y then ::a:: else ::a:: end ::a::", None),
    ("::a:: do\n::a:: end", f"2: {twice('a')}"),
    ("::a:: while x do do\n::a:: end end", f"2: {twice('a')}"),
    ("do ::a:: end ::a::\n::a::", f"2: {twice('a')}"),
    ("::a:: repeat\n::a:: until x", f"2: {twice('a')}"),
    ("::a:: for i = 1, 2 do\n::a:: end", f"2: {twice('a')}"),
]

FUNCTIONS = [
    # ---- a label isn't visible in an inner function, nor one of that outside
    ("::a:: function f() goto a end", f"1: {missing('a')}"),
    ("::a::\nlocal function f() goto a end", f"2: {missing('a')}"),
    ("function f() ::a:: end goto a", f"1: {missing('a')}"),
    ("x = function() goto a end ::a::", f"1: {missing('a')}"),
    ("::a:: function f() ::a:: goto a end goto a", None),
    ("function f() goto a ::a:: return function() goto a ::a:: end end", None),
    ("::a:: x = function() ::a:: return function() ::a:: end end", None),
    ("::a:: x = function() do\n::b:: ::b:: end end", f"2: {twice('b')}"),
    ("x = function() goto a\nend", f"1: {missing('a')}"),
    ("local x = 1 goto a x = function() local y = 1 end ::a::", None),
    ("while x do y = function()\ngoto out end end ::out::", f"2: {missing('out')}"),
]

LOCAL = [
    # ---- into the scope of a local
    ("goto x local a = 1 ::x:: print(a)", f"1: {INTO}"),
    ("goto x local a = 1 ::x::", None),
    ("goto x local a = 1 ::x:: ;", None),
    ("goto x local a = 1 ::x:: ::y::", None),
    ("goto x local a = 1 ::x:: ::y:: print(a)", f"1: {INTO}"),
    ("goto y local a = 1 ::x:: local b = 2 ::y::", None),
    ("goto x local a = 1 ::x:: local b = 2 ::y::", f"1: {INTO}"),
    ("goto x local function f() end ::x:: f()", f"1: {INTO}"),
    ("goto x local function f() end ::x::", None),
    ("local a = 1 goto x ::x:: print(a)", None),
    ("::x:: local a = 1 goto x", None),
    ("::x:: print(1) local a = 1 goto x", None),
    ("local a = 1 ::x:: local b = 2 goto x", None),
    ("goto x local a, b, c ::x:: print(b)", f"1: {INTO}"),
    ("goto x local a <const> = 1 ::x:: print(a)", f"1: {INTO}"),
    ("do goto x end local a = 1 ::x:: print(a)", f"1: {INTO}"),
    ("do local b = 1 goto x end local a = 1 ::x:: print(a)", f"1: {INTO}"),
    ("do local b, c, d = 1 goto x end local a ::x:: print(a)", f"1: {INTO}"),
    ("do local b = 1 goto x end local a = 1 ::x::", None),
    ("local z do local b = 1 goto x end ::x:: print(z)", None),
    ("do local a = 1 end goto x do local b end ::x:: print(1)", None),
    ("goto x do local a = 1 end ::x:: print(1)", None),
    ("for i = 1, 2 do goto x local a = i ::x:: end", None),
    ("for i = 1, 2 do goto x local a = i ::x:: print(a) end", f"1: {INTO}"),
    ("for i = 1, 2 do local a = i goto x print(a) ::x:: print(i) end", None),
    ("while x do if y then goto next end local a = 1 ::next:: end", None),
    ("while x do if y then goto next end local a = 1 ::next:: print(a) end", f"1: {INTO}"),
    ("function f(a) goto x local b = a ::x:: end", None),
    ("function f(a)\ngoto x local b = a ::x:: return b end", f"2: {INTO}"),
    ("function f(a) goto x ::x:: return a end", None),
    # ---- before `until` a local is still visible
    ("repeat goto x local a = 1 ::x:: until a", f"1: {INTO}"),
    ("repeat goto x local a = 1 ::x:: until true", f"1: {INTO}"),
    ("repeat goto x ::x:: until a", None),
    ("repeat local a = 1 goto x ::x:: until a", None),
    ("repeat do goto x end local a ::x:: until b", f"1: {INTO}"),
    ("repeat if x then goto continue end y = 1 ::continue:: until z", None),
    ("repeat do goto x local a ::x:: end until b", None),
    # ---- the first label of a name in the innermost block that has one
    ("goto a local b do goto a ::a:: end ::a:: print(b)", f"1: {INTO}"),
    ("do goto a ::a:: end local b ::a:: print(b)", None),
    ("do do goto a end ::a:: end local b ::a:: print(b)", None),
    ("do local c do goto a end ::a:: print(c) end", None),
]

FIRST = [
    # ---- the first place in the text
    ("goto y break", f"1: {missing('y')}"),
    ("break goto y", f"1: {BREAK}"),
    ("goto y\n::a:: ::a::", f"1: {missing('y')}"),
    ("::a::\n::a::\ngoto y", f"2: {twice('a')}"),
    ("goto x\nlocal a = 1\nbreak ::x:: print(a)", f"1: {INTO}"),
    ("local c <const> = 1\nc = 2 goto y", f"2: {CONSTANT}"),
    ("goto y local _ENV", f"1: {missing('y')}"),
    ("_ENV = 1 goto y", f"1: {ENV}"),
    ("x = function() break end ::a:: ::a::", f"1: {BREAK}"),
    ("::a:: x = function()\ngoto b end ::a::", f"2: {missing('b')}"),
    ("goto a ::a::\n::a::", f"2: {twice('a')}"),
]

GRAMMAR = [
    # ---- what the grammar refuses comes before
    ("goto", "1: unexpected end"),
    ("::x", "1: unexpected end"),
    ("::x:", "1: unexpected ':'"),
    ("::", "1: unexpected end"),
    ("goto 1", "1: unexpected '1'"),
    ("goto goto", "1: unexpected 'goto'"),
    ("::end::", "1: unexpected 'end'"),
    ("return ::x::", "1: unexpected '::'"),
    ("return; ::x::", "1: unexpected '::'"),
    ("goto y goto", "1: unexpected end"),
]


def rows():
    """All rows: a script, and None where it is accepted, else 'LINE: TEXT'."""
    for group in (PLAIN, BLOCKS, FUNCTIONS, LOCAL, FIRST, GRAMMAR):
        yield from group
    # deep blocks, and many labels
    yield "do " * 58 + "goto a " + "end " * 58 + "::a::", None
    yield "do " * 60 + "goto a", "1: nesting too deep"
    yield " ".join(f"::a{number}::" for number in range(400)) + " goto a399", None
    yield " ".join(f"::a{number}::" for number in range(400)) + "\n::a0::", f"2: {twice('a0')}"
    yield f"local {', '.join(f'a{number}' for number in range(200))} goto x\nlocal b ::x::", f"2: {LOCALS}"
