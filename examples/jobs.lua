-- A queue of jobs through a linda, with two keys for results.
-- Shows: `send` and `receive`, queues that are first in, first out by key, a receive of several keys, and jobs that fail.

local lanes = require "lanes"
local linda = lanes.linda()

-- what a job's name does
local tasks = {
  square = function(n) return n * n end,
  sum = function(n)
    local s = 0
    for i = 1, n do s = s + i end
    return s
  end,
  root = function(n)
    if n < 0 then error("no root of " .. n, 0) end
    local r = 0
    while (r + 1) * (r + 1) <= n do r = r + 1 end
    return r
  end,
}

-- a job is two values: what to do, and with which number
local function order(task, n) linda:send("jobs", task, n) end

order("square", 12)
order("root", 1000000)
order("sum", 100)
order("root", -4)
order("cube", 3)
order("stop", 0)

local count = 0
while true do
  local _, task = linda:receive("jobs")
  local _, n = linda:receive("jobs")
  if task == "stop" then break end
  count = count + 1
  local name = task .. "(" .. n .. ")"
  local ok, value = pcall(function()
    local f = tasks[task] or error("no such task", 0)
    return f(n)
  end)
  if ok then linda:send("done", name .. " = " .. value) else linda:send("failed", name .. ": " .. value) end
end

-- the failed ones come first, since their key does
for i = 1, count do
  local key, text = linda:receive("failed", "done")
  print(key, text)
end
