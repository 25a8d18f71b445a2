-- Strings compare by their bytes.
print("a" < "b", "b" < "a", "a" < "a", "a" <= "a", "a" > "b", "a" >= "a")
print("" < "a", "" < "", "a" < "aa", "aa" < "a", "ab" < "b", "Z" < "a", "10" < "9", " " < "!")
print("a\0b" < "a\0c", "a\0" > "a", "\0" < "", "\127" < "\128", "a" < "\255")
print("a" == "a", "a" == "b", "a" ~= "a", "" == "", "1" == 1, "a\0" == "a")
