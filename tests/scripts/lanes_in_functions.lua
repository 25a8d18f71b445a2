-- A queue of jobs through functions and closures.
local l = require "lanes".linda()
local function producer(n) for i = 1, n do l:send("jobs", i) end l:send("jobs", "stop") end
local function worker()
  local sum = 0
  while true do
    local _, job = l:receive("jobs")
    if job == "stop" then break end
    sum = sum + job * job
    l:send("done", job * job)
  end
  return sum
end
producer(5)
print(worker())
for i = 1, 5 do print(l:receive("done")) end
