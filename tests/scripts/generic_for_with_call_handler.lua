-- A table with `__call` is an iterator.
local counter = setmetatable({n = 0}, {__call = function(self, state, last)
  self.n = self.n + 1
  if self.n <= 3 then return self.n, state end
end})
for i, s in counter, "s" do print(i, s) end
