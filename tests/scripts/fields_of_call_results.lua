-- Calls, indexes and methods one after another.
local function chain(v)
  return {
    v = v,
    list = {v, v + 1},
    next = function() return chain and {v = "global"} or {v = "no global"} end,
    add = function(self, d) return {v = self.v + d, add = self.add, get = function(s) return s.v, "more" end} end,
  }
end
print(chain(1).v, chain(2).list[2], chain(3).next().v)
print(chain(1):add(2):add(3):get())
print((chain(1):add(2):get()))
print(chain(5)["list"][1], #chain(5).list, -chain(5).v, not chain(5).none)
