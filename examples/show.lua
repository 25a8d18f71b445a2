-- A printer of values: tables with their fields, nested ones on lines of their own, and those that were shown before by a number.
-- Shows: `pairs` in the order in which fields were set (in Lua that order is open), recursion, and a table of what was seen.

local function quoted(s) return '"' .. s .. '"' end

local function key_text(k)
  if type(k) == "string" then return k end
  return "[" .. (type(k) == "boolean" and tostring(k) or type(k) == "number" and "" .. k or type(k)) .. "]"
end

-- prints a value; each table that is shown has a number
local function show(value)
  local seen, count = {}, 0
  local function text(v, indent)
    if type(v) == "string" then return quoted(v) end
    if type(v) == "number" or type(v) == "boolean" or v == nil then return tostring(v) end
    if type(v) ~= "table" then return "(" .. type(v) .. ")" end
    if seen[v] then return "(table " .. seen[v] .. " again)" end
    count = count + 1
    seen[v] = count
    if next(v) == nil then return "{}" end
    local inner, lines, items = indent .. "  ", "", #v
    for i = 1, items do lines = lines .. inner .. text(v[i], inner) .. ",\n" end
    for k, field in pairs(v) do
      local is_item = type(k) == "number" and 1 <= k and k <= items
      if not is_item then lines = lines .. inner .. key_text(k) .. " = " .. text(field, inner) .. ",\n" end
    end
    return "{ -- table " .. seen[v] .. "\n" .. lines .. indent .. "}"
  end
  print(text(value, ""))
end

local author = {name = "Ada", born = 1815}
local library = {
  "a plain item",
  {title = "Notes", pages = 66, by = author, tags = {"engine", "numbers"}},
  {title = "Letters", by = author, lent = false, tags = {}},
}
library.first = library[2]
library.itself = library
library[true] = show

show(library)
show("just a text")
show({{{}}})
