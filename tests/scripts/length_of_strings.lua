-- In bytes.
print(#"", #"a", #"abc", #"a\0b", #"\u{7FF}", #"\u{FFFF}", #[[
one
two]])
print(#"ab" + #"cd", # "x" .. "y", -#"abc")
