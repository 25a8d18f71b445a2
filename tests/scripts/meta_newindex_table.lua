-- `__newindex` as a table: new keys go there.
local store = {}
local t = setmetatable({old = 1}, {__newindex = store})
t.old = 2
t.new = 3
print(t.old, rawget(t, "new"), store.new, store.old)
t.new = nil
print(store.new)
store.x = 1
t.x = 2
print(rawget(t, "x"), store.x)
