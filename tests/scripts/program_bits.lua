-- Counting and turning bits.
local function ones(n) local c = 0 while n ~= 0 do n = n & (n - 1) c = c + 1 end return c end
local function reverse(n) local r = 0 for i = 0, 63 do r = r << 1 | (n >> i & 1) end return r end
local function rotate(n, k) return n << k | n >> (64 - k) end
print(ones(0), ones(-1), ones(0xF0F0), ones(math.mininteger))
print(reverse(1) == math.mininteger, reverse(reverse(123456789)), rotate(1, 63) == math.mininteger, rotate(-2, 1))
local h = 0xcbf29ce484222325
for _, b in ipairs({104, 101, 108, 108, 111}) do h = (h ~ b) * 0x100000001b3 end
print(h)
