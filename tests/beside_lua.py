#!/usr/bin/env python3
"""Checks what tests/scripts wants beside `lua5.4`, without the program.

    tests/beside_lua.py [NAME..]

Each script must print in lua5.4 what is wanted of it here, and end with the same line and an error where one is wanted, unless its
first line says 'Differs from Lua', and then something must differ. A script that is refused has a line and a status of our own, so of
it nothing is asked. The module of lanes is one in Lua that sends and receives without waiting.
"""
import concurrent.futures
import os
import subprocess
import sys

sys.dont_write_bytecode = True
import script_files

SECONDS = 10
RUNS = 5  # the order of a walk in lua5.4 is another in each run, and may be ours by chance
REFUSED = 3
MARK = b"Differs from Lua"
LANES = """
local made = 0
package.preload.lanes = function()
  return {linda = function()
    local queues, l, name = {}, {}, "linda: " .. made
    made = made + 1
    function l:send(key, ...)
      queues[key] = queues[key] or {}
      for _, v in ipairs({...}) do table.insert(queues[key], v) end
      return true
    end
    function l:receive(...)
      for _, key in ipairs({...}) do
        if queues[key] and queues[key][1] ~= nil then return key, table.remove(queues[key], 1) end
      end
      error("nothing to receive", 0)
    end
    return setmetatable(l, {__tostring = function() return name end})
  end}
end
"""


def line_of(err):
    """The text of an error that ended lua5.4, as the program would show it."""
    text = err.split(b"\nstack traceback:")[0].split(b"\n\t[C]")[0].rstrip(b"\n")
    return text.replace(b"lua5.4: ", b"lanes: ", 1) + b"\n" if text else b""


def agrees(name):
    """Whether lua5.4 does what is wanted."""
    out, err, status = script_files.wanted(name)
    run = script_files.ended(["lua5.4", "-e", LANES], name, SECONDS)
    return run is not None and run.stdout == out and line_of(run.stderr) == err and (run.returncode != 0) == (status != 0)


def finding(name):
    """What is wrong with a case, or None."""
    if script_files.wanted(name)[2] == REFUSED:
        return None
    script = script_files.SCRIPTS / f"{name}.lua"
    marked = script.is_file() and MARK in script.read_bytes().split(b"\n")[0]
    if marked:
        return "says that it differs from Lua and doesn't" if all(agrees(name) for _ in range(RUNS)) else None
    return None if agrees(name) else "differs from Lua and doesn't say so"


def main():
    names = sys.argv[1:] or script_files.names()
    with concurrent.futures.ThreadPoolExecutor(os.cpu_count()) as pool:
        found = [(name, text) for name, text in zip(names, pool.map(finding, names)) if text]
    for name, text in found:
        print(f"tests/scripts/{name}.lua: {text}")
    print(f"{len(names)} scripts, {len(found)} findings")
    return 1 if found else 0


sys.exit(main())
