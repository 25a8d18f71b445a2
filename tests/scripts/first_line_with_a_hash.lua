#!/usr/bin/env lanes
-- The first line is skipped where it begins with `#`, and still counts as a line.
print("run")
print(pcall(error, "x"))
local ok, e = pcall(function() error("here") end)
print(e)
