-- A generator of numbers that wrap, and their divisors.
local seed = 42
local function random(n)
  seed = seed * 6364136223846793005 + 1442695040888963407
  return (seed >> 33) % n
end
local function gcd(a, b) while b ~= 0 do a, b = b, a % b end return a end
local coprime = 0
for i = 1, 2000 do if gcd(random(1000) + 1, random(1000) + 1) == 1 then coprime = coprime + 1 end end
print(coprime, seed)
