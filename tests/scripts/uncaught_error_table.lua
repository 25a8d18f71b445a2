-- Differs from Lua in the form of the line: an error value that is no string and no integer is named by its type.
error({})
