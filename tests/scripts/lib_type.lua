-- The type of each kind of value.
print(type(nil), type(true), type(false), type(1), type("s"), type({}), type(print), type(function() end))
print(type(type), type(type(1)), type(math), type(_G), type(_VERSION))
