#!/usr/bin/env python3
"""Times the scripts of bench/eval on the built program beside `lua5.4`, and prints a table in Markdown.

    bench/eval.py [N [NAME..]]

Each script is run N times (9 where it is not given) by both in turn, after one run of each that does not count, with the output thrown
away. The times are the least of the runs. The ratio is the middle of the ratios of neighbouring runs, the program's time by lua5.4's,
which a busy machine moves less than a least time. The last line has the geometric mean of the ratios and the greatest of them. What a
script prints is compared first: a script of which the two print different things, or that ends with an error, is shown so, and the status
is then 1.
"""
import math
import os
import pathlib
import shutil
import statistics
import subprocess
import sys
import time

SCRIPTS = pathlib.Path(__file__).resolve().parent / "eval"
PROGRAM = SCRIPTS.parent.parent / "crates" / "lanes" / "out" / "lanes"
PEER = "lua5.4"


def names():
    return sorted(path.stem for path in SCRIPTS.glob("*.lua"))


def fault_of(name):
    """What keeps a script from being measured, or None where both print the same and end well."""
    ended = [subprocess.run([command, f"{name}.lua"], cwd=SCRIPTS, capture_output=True) for command in (str(PROGRAM), PEER)]
    for command, run in zip(("lanes", PEER), ended):
        if run.returncode != 0:
            return f"{command}: status {run.returncode} {run.stderr.decode(errors='replace').strip()[:80]}"
    return None if ended[0].stdout == ended[1].stdout else "the two print different things"


def seconds(command, name):
    start = time.perf_counter()
    subprocess.run([command, f"{name}.lua"], cwd=SCRIPTS, stdout=subprocess.DEVNULL, stderr=subprocess.DEVNULL, check=True)
    return time.perf_counter() - start


def measured(name, runs):
    """The least time of each, and the middle ratio."""
    pairs = [(seconds(str(PROGRAM), name), seconds(PEER, name)) for _ in range(runs)]
    return min(a for a, _ in pairs), min(b for _, b in pairs), statistics.median(a / b for a, b in pairs)


def main():
    runs = int(sys.argv[1]) if len(sys.argv) > 1 else 9
    unknown = set(sys.argv[2:]) - set(names())
    if unknown or runs < 1:
        sys.exit(f"no such script: {', '.join(sorted(unknown))}" if unknown else "usage: eval.py [N [NAME..]]")
    if not os.access(PROGRAM, os.X_OK) or not shutil.which(PEER):
        sys.exit(f"needs the built program ({PROGRAM}) and {PEER}")
    print("| Script | `lanes` | `lua5.4` | ratio |", "|---|---|---|---|", sep="\n")
    ratios, faults = [], 0
    for name in sys.argv[2:] or names():
        fault = fault_of(name)
        if fault:
            faults += 1
            print(f"| `{name}` | {fault} | | |", flush=True)
            continue
        ours, theirs, ratio = measured(name, runs)
        ratios.append(ratio)
        print(f"| `{name}` | {ours:.2f} s | {theirs:.2f} s | {ratio:.2f} |", flush=True)
    if ratios:
        mean = math.exp(statistics.fmean(math.log(ratio) for ratio in ratios))
        print(f"| geometric mean; greatest | | | {mean:.2f}; {max(ratios):.2f} |")
    return 1 if faults else 0


sys.exit(main())
