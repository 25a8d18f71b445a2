-- Many statements, arguments, fields and branches.
local function sum(...) local s = 0 for i = 1, select("#", ...) do s = s + (select(i, ...)) end return s, select("#", ...) end
print(sum(1, 2, 3, 4, 5, 6, 7, 8, 9, 10, 11, 12, 13, 14, 15, 16, 17, 18, 19, 20, 21, 22, 23, 24, 25, 26, 27, 28, 29, 30))
local t = {1, 2, 3, 4, 5, 6, 7, 8, 9, 10, 11, 12, 13, 14, 15, 16, 17, 18, 19, 20, 21, 22, 23, 24, 25, 26, 27, 28, 29, 30, 31, 32, 33, 34, 35, 36, 37, 38, 39, 40,
  41, 42, 43, 44, 45, 46, 47, 48, 49, 50, 51, 52, 53, 54, 55, 56, 57, 58, 59, 60}
print(#t, t[51], t[60])
local a, b, c, d, e, f, g, h, i, j = sum(1), sum(2), sum(3), sum(4), sum(5), sum(6), sum(7), sum(8), sum(9), 10
print(a, b, c, d, e, f, g, h, i, j)
local function which(n)
  if n == 1 then return "one" elseif n == 2 then return "two" elseif n == 3 then return "three" elseif n == 4 then return "four"
  elseif n == 5 then return "five" elseif n == 6 then return "six" else return "many" end
end
print(which(1), which(4), which(6), which(7))
