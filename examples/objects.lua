-- A small object system: classes with inheritance, and fractions with operators.
-- Shows: metatables with `__index`, `__call`, arithmetic, comparison and `__tostring`, methods, and errors with the caller's line.

-- a new class, which may have one above it; a call of the class makes an object
local function class(name, parent)
  local c = {name = name}
  c.__index = c
  c.__tostring = parent and parent.__tostring
  return setmetatable(c, {
    __index = parent,
    __call = function(self, ...)
      local object = setmetatable({}, self)
      if self.init then object:init(...) end
      return object
    end,
    __tostring = function(self) return "class " .. self.name end,
  })
end

-- ---- inheritance

local Animal = class("Animal")
function Animal:init(name, sound) self.called, self.sound = name, sound end
function Animal:speak() return self.called .. " says " .. self.sound end
function Animal.__tostring(self) return getmetatable(self).name .. " " .. self.called end

local Dog = class("Dog", Animal)
function Dog:init(name) Animal.init(self, name, "woof") end
function Dog:fetch(what)
  if not what then error(self.called .. " waits for a word", 2) end
  return self.called .. " brings the " .. what
end

local Puppy = class("Puppy", Dog)
function Puppy:speak() return Dog.speak(self) .. ", softly" end

for _, animal in ipairs({Animal("Tom", "meow"), Dog("Rex"), Puppy("Bit")}) do
  print(animal, animal:speak(), animal.fetch and animal:fetch("stick") or "can't fetch")
end
print(Animal, Puppy)
print(pcall(function()
  local back = Dog("Rex"):fetch() -- the error has this line
  return back
end))

-- ---- operators

local Fraction = class("Fraction")

local function divisor(a, b)
  while b ~= 0 do a, b = b, a % b end
  return a
end

function Fraction:init(above, below)
  if below == 0 then error("a fraction needs something below", 0) end
  local d = divisor(above, below)
  if below // d < 0 then d = -d end
  self.above, self.below = above // d, below // d
end

-- a whole number counts as a fraction too
local function fraction(x) return type(x) == "number" and Fraction(x, 1) or x end

function Fraction.__add(a, b)
  a, b = fraction(a), fraction(b)
  return Fraction(a.above * b.below + b.above * a.below, a.below * b.below)
end
function Fraction.__mul(a, b)
  a, b = fraction(a), fraction(b)
  return Fraction(a.above * b.above, a.below * b.below)
end
function Fraction.__unm(a) return Fraction(-a.above, a.below) end
function Fraction.__sub(a, b) return a + -fraction(b) end
function Fraction.__eq(a, b) return a.above == b.above and a.below == b.below end
function Fraction.__lt(a, b)
  a, b = fraction(a), fraction(b)
  return a.above * b.below < b.above * a.below
end
function Fraction.__tostring(a) return a.below == 1 and "" .. a.above or a.above .. "|" .. a.below end

local half, third = Fraction(1, 2), Fraction(1, 3)
print(half + third, half - third, half * third, -half, half + 1, 2 * third)
print(half > third, half == Fraction(4, 8), 1 < Fraction(7, 5))

local sum = fraction(0)
for n = 1, 10 do sum = sum + Fraction(1, n * (n + 1)) end
print("1/(1*2) + 1/(2*3) + .. + 1/(10*11) = " .. tostring(sum))
print(pcall(Fraction, 1, 0))
