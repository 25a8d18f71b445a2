-- The primes below a limit by the sieve of Eratosthenes, in rows of ten, and the numbers below 100 in their prime factors.
-- Shows: arrays, numeric loops with a step, a loop that goes on with `goto`, and text that is joined without a string library.

local limit = 200

-- the primes up to n, in order
local function primes_up_to(n)
  local crossed_out, primes = {}, {}
  for i = 2, n do
    if crossed_out[i] then goto continue end
    primes[#primes + 1] = i
    for j = i * i, n, i do crossed_out[j] = true end
    ::continue::
  end
  return primes
end

-- a number with blanks before it, up to a width
local function padded(n, width)
  local text = "" .. n
  while #text < width do text = " " .. text end
  return text
end

-- the prime factors of n as a text: 12 is 2 * 2 * 3
local function factors(n, primes)
  local text
  for _, p in ipairs(primes) do
    while n % p == 0 do
      text = (text and text .. " * " or "") .. p
      n = n // p
    end
    if n == 1 then break end
  end
  return text
end

local primes = primes_up_to(limit)
print("The " .. #primes .. " primes up to " .. limit .. ":")
local row = ""
for i, p in ipairs(primes) do
  row = row .. padded(p, 5)
  if i % 10 == 0 or i == #primes then
    print(row)
    row = ""
  end
end

print()
print("Numbers from 90 to 100:")
for n = 90, 100 do print(padded(n, 5) .. " = " .. factors(n, primes)) end
