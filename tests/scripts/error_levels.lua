-- Level 1 is the call of `error`, level 2 the call of the function that called it, level 0 no position.
local function raise(level)
  error("message", level) -- line 3
end
local function call(level)
  raise(level) -- line 6
  return "never"
end
for _, level in ipairs({0, 1, 2}) do
  print(pcall(call, level))
end
print(pcall(function() raise() end))
print(pcall(function()
  raise(
    2
  )
end))
print(pcall(raise, 1))
print(pcall(raise, 2))
print(pcall(raise, "2"))
print(pcall(raise, -1))
