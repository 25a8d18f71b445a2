error({}) -- Differs from Lua in the form of the line.
