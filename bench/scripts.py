#!/usr/bin/env python3
"""Times whole runs of the built program on large scripts, beside `luac5.4 -p` where that reads the same script.

    bench/scripts.py [RUNS]

Each script has at most 1,048,576 bytes. The time is the least of RUNS runs (10 where it is not given) by turns, with the output
thrown away; the ratio is the middle of the ratios of neighbouring runs, which a busy machine moves less than a least time; the peak is
the greatest resident memory of a run, where Debian's package time is installed.
"""
import os
import pathlib
import random
import shutil
import statistics
import subprocess
import sys
import tempfile
import time

PROGRAM = pathlib.Path(__file__).resolve().parent.parent / "crates" / "lanes" / "out" / "lanes"
OPENING = 'local lanes = require "lanes" local l = lanes.linda()\n'
LIMIT = 1_048_576


def by_turns(keys):
    """Sends and receives by turns over so many keys, up to the limit."""
    names = ["".join(chr(97 + (n // 26 ** place) % 26) for place in range(4)) for n in range(keys)]
    lines, size, turn = [OPENING], len(OPENING), 0
    while True:
        key = names[turn % keys]
        pair = f'l:send("{key}", {turn})\nprint(l:receive("{key}"))\n'
        if size + len(pair) > LIMIT:
            return "".join(lines)
        lines.append(pair)
        size += len(pair)
        turn += 1


def sends_first():
    """Sends to one key, and then as many receives."""
    count = (LIMIT - len(OPENING)) // (len('l:send("k", 00000)\n') + len('print(l:receive("k"))\n'))
    sends = "".join(f'l:send("k", {n:05})\n' for n in range(count))
    return OPENING + sends + 'print(l:receive("k"))\n' * count


def real_looking():
    """Lua code as a person writes it: functions, tables, loops, strings and comments."""
    source = random.Random(5)
    words = "count index value total name item list node left right size limit buffer key result state".split()

    def word():
        return source.choice(words) + str(source.randrange(90))

    parts, size = [], 0
    while True:
        a, b, c, d = word(), word(), word(), word()
        n, m = source.randrange(10_000), source.randrange(100)
        part = f"""-- keeps {a} and {b} in step
function {a}({b}, {c})
  local {d} = {{ {b}, {c}, size = {n}, ["{word()}"] = "{word()} {word()}\\n" }}
  for i = 1, #{d} do
    if {d}[i] ~= nil and {d}[i] > {m} then
      {d}[i] = {d}[i] * {n} + ({b} // {m + 1}) % {c}
    elseif {b} == '{word()}' or not {c} then
      return {d}, 0x{n:x}
    end
  end
  while {b} < {n} do {b} = {b} + 1 end
  return function(x) return x .. "{word()}" .. {d}.size end
end
"""
        if size + len(part) > LIMIT:
            return "".join(parts)
        parts.append(part)
        size += len(part)


def shapes():
    """Scripts of one long list each, which are read without deep recursion and in linear time."""
    line = "value = value + 1\n"
    return [
        ("one statement a line", line * (LIMIT // len(line))),
        ("60,000 `elseif` parts", "if a then" + " elseif b then" * 60_000 + " end"),
        ("one call with 100,000 arguments", "f(" + "1, " * 99_999 + "1)"),
        ("a table of 100,000 fields", "t = {" + "1, " * 100_000 + "}"),
        ("a block of 100,000 statements", "do " + "f() " * 100_000 + "end"),
    ]


def measured(commands, runs):
    """The times in seconds and the status of the runs of each command, by turns after a first run that does not count. Ten seconds of
    runs are enough, but two of each are made at least."""
    times, status, spent = [[] for _ in commands], [None] * len(commands), 0
    for run in range(runs + 1):
        if 10 < spent and 3 <= run:
            break
        for place, command in enumerate(commands):
            start = time.perf_counter()
            status[place] = subprocess.run(command, stdout=subprocess.DEVNULL, stderr=subprocess.DEVNULL).returncode
            taken = time.perf_counter() - start
            spent += taken
            if 0 < run:
                times[place].append(taken)
    return list(zip(times, status))


def peak(command):
    """The greatest resident memory of one run in kilobytes, as Debian's `time` tells it, or none where that is not installed.
    A process that is started from here has the peak of this one as its own, so it can't be asked without."""
    if not shutil.which("time"):
        return None
    ended = subprocess.run(["time", "-f", "%M", *command], stdout=subprocess.DEVNULL, stderr=subprocess.PIPE, text=True)
    return int(ended.stderr.split()[-1])


def main():
    runs = int(sys.argv[1]) if len(sys.argv) > 1 else 10
    scripts = [
        ("sends and receives by turns, one key", by_turns(1)),
        ("sends and receives by turns, 10,000 keys", by_turns(10_000)),
        ("all sends of one key, then all receives", sends_first()),
        ("Lua code (its functions are declared, and none is called)", real_looking()),
        ("the same and a bad byte (read, and refused at its end without being parsed)", real_looking() + "@"),
        *shapes(),
    ]
    luac = shutil.which("luac5.4")
    with tempfile.TemporaryDirectory() as folder:
        for name, text in scripts:
            path = os.path.join(folder, "script.lua")
            pathlib.Path(path).write_text(text)
            commands = [[str(PROGRAM), path]] + ([[luac, "-p", path]] if luac else [])
            (own, status), *peer = measured(commands, runs)
            line = f"{name}: {len(text)} bytes, {text.count(chr(10))} lines: {min(own) * 1000:.1f} ms, status {status}"
            kilobytes = peak([str(PROGRAM), path])
            line += f", peak {kilobytes / 1024:.1f} MiB" if kilobytes else ""
            for times, status in peer:
                ratio = statistics.median(one / other for one, other in zip(own, times))
                line += f"; luac5.4 -p {min(times) * 1000:.1f} ms" + (f", status {status}" if status else f", ratio {ratio:.2f}")
            print(line)


main()
