-- A class by `__index`, with inheritance.
local Animal = {}
Animal.__index = Animal
function Animal.new(name) return setmetatable({name = name}, Animal) end
function Animal:speak() return self.name .. " makes a sound" end
function Animal:kind() return "animal" end
local Dog = setmetatable({}, {__index = Animal})
Dog.__index = Dog
function Dog.new(name) local d = Animal.new(name) return setmetatable(d, Dog) end
function Dog:speak() return self.name .. " barks" end
local a, d = Animal.new("cat"), Dog.new("rex")
print(a:speak(), a:kind())
print(d:speak(), d:kind())
print(getmetatable(d) == Dog, rawget(d, "speak"), d.nothing)
