-- What an if takes for true, by each form of condition.
local t, n, s = {}, nil, ""
local function yes(...) return select("#", ...) end
local function test(name, v) if v then print(name, "true") else print(name, "false") end end
test("nil", nil) test("false", false) test("0", 0) test("empty", "") test("table", {}) test("function", print)
if t.x then print("field") elseif not t.x then print("no field") end
if n == nil and s == "" then print("both") end
if n or s then print("either") end
if not (n and s) then print("not both") end
if yes() == 0 then print("call") end
if 1 < 2 and 2 <= 2 and 3 > 2 and "a" < "b" and 1 ~= "1" then print("comparisons") end
while not n do n = 1 end
repeat n = n + 1 until n > 3 or not n
print(n)
