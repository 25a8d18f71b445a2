-- A small stack machine.
local code = {{"push", 10}, {"push", 1}, {"label"}, {"over"}, {"mul"}, {"swap"}, {"dec"}, {"dup"}, {"jump", 13}, {"push", 0}, {"print"}, {"halt"}, {"swap"}, {"goto", 3}}
local ops, stack, n = {}, {}, 0
local function push(v) n = n + 1 stack[n] = v end
local function pop() local v = stack[n] stack[n] = nil n = n - 1 return v end
function ops.push(v) push(v) end
function ops.label() end
function ops.over() push(stack[n - 1]) end
function ops.mul() push(pop() * pop()) end
function ops.swap() local a, b = pop(), pop() push(a) push(b) end
function ops.dec() push(pop() - 1) end
function ops.dup() push(stack[n]) end
function ops.print() pop() print(n, stack[1], stack[2]) end
ops["goto"] = function(to) return to end
function ops.jump(to) if pop() ~= 0 then return to end end
function ops.halt() return false end
local at, steps = 1, 0
while at do
  local instruction = code[at]
  local to = ops[instruction[1]](instruction[2])
  steps = steps + 1
  if to == nil then at = at + 1 else at = to end
end
print(steps, n, stack[1], stack[2])
