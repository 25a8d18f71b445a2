-- A semicolon may follow the values.
local function a() return; end
local function b() return 1; end
local function c() do return 1, 2; end end
print(a(), b(), c())
return;
