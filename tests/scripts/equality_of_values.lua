-- By kind and content, and for tables and functions by object.
local t, u, f, g = {}, {}, function() end, function() end
print(t == t, t == u, t ~= u, f == f, f == g, print == print, print == pcall)
print(nil == nil, nil == false, 0 == false, "" == false, 0 == "0", t == f)
print("ab" == "a" .. "b", 0x10 == 16, -0 == 0)
local v = t
print(v == t, {} == {}, t ~= t)
