-- Eight queens on a board, none of which attacks another: all ways, counted, and the first of them drawn.
-- Shows: recursion, closures that share locals, a function that is called for each answer, and an error used to stop early.

local size = 8

-- calls `found` with the row of each column's queen, for each way to place them
local function place_queens(n, found)
  local rows, taken, up, down = {}, {}, {}, {}
  local function place(column)
    if column > n then return found(rows) end
    for row = 1, n do
      if not (taken[row] or up[column + row] or down[column - row]) then
        rows[column], taken[row], up[column + row], down[column - row] = row, true, true, true
        place(column + 1)
        taken[row], up[column + row], down[column - row] = nil, nil, nil
      end
    end
  end
  place(1)
end

local function draw(rows)
  for row = 1, size do
    local line = ""
    for column = 1, size do line = line .. (rows[column] == row and " Q" or " .") end
    print(line)
  end
end

-- the first way: any value may be raised, here one that only this call knows
local enough = {}
local ok, why = pcall(place_queens, size, function(rows)
  draw(rows)
  error(enough)
end)
if not ok and why ~= enough then error(why, 0) end

for n = 4, size do
  local ways = 0
  place_queens(n, function() ways = ways + 1 end)
  print(n .. " queens: " .. ways .. " ways")
end
