-- Each base: its digits in both cases, one beyond it, signs, blanks, and what reads as nothing.
local small = {"0", "1", "2", "3", "4", "5", "6", "7", "8", "9", "a", "b", "c", "d", "e", "f", "g", "h", "i", "j", "k", "l", "m", "n",
  "o", "p", "q", "r", "s", "t", "u", "v", "w", "x", "y", "z"}
local large = {"0", "1", "2", "3", "4", "5", "6", "7", "8", "9", "A", "B", "C", "D", "E", "F", "G", "H", "I", "J", "K", "L", "M", "N",
  "O", "P", "Q", "R", "S", "T", "U", "V", "W", "X", "Y", "Z"}
for base = 2, 36 do
  local last, next = small[base], small[base + 1] or "_"
  print(base, tonumber(last, base), tonumber(large[base], base), tonumber(next, base), tonumber("1" .. next, base))
  print(tonumber("10", base), tonumber("100", base), tonumber(last .. last .. last, base), tonumber("0001" .. last, base))
  print(tonumber("-1" .. last, base), tonumber("+1" .. last, base), tonumber(" \t\n" .. last .. "\v\f\r ", base), tonumber("  -" .. last .. "  ", base))
  print(tonumber("", base), tonumber(" ", base), tonumber("-", base), tonumber("+", base), tonumber("- 1", base), tonumber("--1", base), tonumber("1 1", base))
  print(tonumber("1.0", base), tonumber("0x1", base) == (base > 33 and 33 * base * base + 1 or nil), tonumber("1_", base), tonumber("\0001", base))
  local long, least = "1", "-1"
  for _ = 1, 70 do long, least = long .. last, least .. "0" end
  print(tonumber(long, base), tonumber("-" .. long, base), tonumber(least, base))
end
