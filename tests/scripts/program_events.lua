-- Handlers called in order, with one that fails.
local Bus = {} Bus.__index = Bus
function Bus.new() return setmetatable({handlers = {}}, Bus) end
function Bus:on(name, f) local h = self.handlers[name] or {} self.handlers[name] = h h[#h + 1] = f return self end
function Bus:fire(name, ...)
  local n = 0
  for _, f in ipairs(self.handlers[name] or {}) do
    local ok, e = pcall(f, ...)
    if ok then n = n + 1 else print("failed", e) end
  end
  return n
end
local bus = Bus.new()
bus:on("x", function(a, b) print("first", a, b) end):on("x", function() error("broken", 0) end):on("x", function(...) print("third", select("#", ...)) end)
print(bus:fire("x", 1, nil))
print(bus:fire("y"))
