-- Differs from Lua, where a fourth value is closed at the end: here it is evaluated and has no effect.
local function it(s, c) if c == nil then return 1 end end
local function fourth() print("fourth") return 4 end
for a in it, nil, nil, fourth() do print(a) end
for a in it, nil, nil, nil, fourth() do print(a) end
local function five() return it, nil, nil, 4, 5 end
for a in five() do print(a) end
