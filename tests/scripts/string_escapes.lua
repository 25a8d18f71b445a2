-- Each escape of a quoted string.
print("a\tb\\c\"d\'e", 'a\tb\\c\"d\'e')
print("\65\066\0067\x41\x4a\x4A", "\u{41}\u{e9}\u{20AC}\u{1F600}")
print("line one\
line two", "one\ntwo")
print("skip \z
       the blanks", "a\z  b", "a\z

b")
print(#"\a\b\f\n\r\t\v\\\"\'", #"\0", #"\u{0}", #"\u{7F}", #"\u{80}", #"\u{7FF}", #"\u{800}", #"\u{FFFF}", #"\u{10000}", #"\u{7FFFFFFF}")
print("\a\b\f\v" == "\7\8\12\11", "\r\n" == "\13\10", "\x00" == "\0", "\u{20AC}" == "\xE2\x82\xAC")
print("'" == '\'', '"' == "\"", "\104ello" == "hello", "\1234" == "{4")
