-- A long text by many joins.
local s = ""
for i = 1, 2000 do s = s .. i % 10 end
print(#s, s < "2", s > "1")
local t = {}
for i = 1, 50 do s = "" .. i t[#t + 1] = s end
local all = ""
for _, v in ipairs(t) do all = all .. v .. " " end
print(all)
