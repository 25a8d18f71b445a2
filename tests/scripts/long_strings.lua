-- Long brackets: no escapes, the first line end is dropped.
print([[one
two]])
print([[
first line end dropped]])
print([==[with ]] and ]=] inside]==])
print([[no \n escapes "here" 'or here']], #[[\n]])
print(#[[]], #[==[]==], #[[

]], [=[]]]=])
local t = {[ [[key]] ] = 1}
print(t.key)
