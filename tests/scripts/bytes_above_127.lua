-- Strings and comments may hold any bytes. Grüße, 日本.
print("Grüße", #"Grüße", "日本" < "本", "é" == "\u{E9}", "é" == "\xC3\xA9")
local t = {["ключ"] = "значение"}
print(t["ключ"], t["\u{43A}люч"])
