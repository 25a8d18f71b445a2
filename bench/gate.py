#!/usr/bin/env python3
"""Runs the gate from nothing and tells what it costs, as a table for docs/SPEED.md.

    bench/gate.py [NAME..]

The last commit is cloned into a temporary folder, and `rt ci --anew` proves there each crate, runs each test and tries each
edit, over nothing that an earlier run kept; with names, only those crates and the ones below them. The processor time is that
of the processes which this starts, looked at four times a second: an edit's check by its folder, a test's build by its words,
and all else of a crate is its proof. What no look saw, with rt itself, is the line `other`. The status is that of `rt ci`.
"""
import collections
import os
import pathlib
import resource
import shutil
import subprocess
import sys
import tempfile
import time

TICK = os.sysconf("SC_CLK_TCK")
PAUSE = 0.25
KINDS = ("proof", "tests", "edits")


class Process:
    """A process that was seen: what it works on, and its processor time at the last look."""

    def __init__(self, work):
        self.work = work
        self.seconds = 0.0


def processes():
    """The number, the parent, the start and the processor time of each process that runs."""
    for entry in os.listdir("/proc"):
        if not entry.isdigit():
            continue
        try:
            fields = pathlib.Path(f"/proc/{entry}/stat").read_text().rpartition(")")[2].split()
        except OSError:
            continue
        yield int(entry), int(fields[1]), fields[19], (int(fields[11]) + int(fields[12])) / TICK


def work_of(number, inherited):
    """The crate and the kind of work of a process, from its words and its folder."""
    try:
        words = pathlib.Path(f"/proc/{number}/cmdline").read_bytes().decode(errors="replace").split("\0")
        folder = os.path.basename(os.readlink(f"/proc/{number}/cwd"))
    except OSError:
        return inherited
    if "--crate-name" not in words:
        return inherited
    crate = words[words.index("--crate-name") + 1]
    if folder.startswith("rt-edit"):
        return crate, "edits"
    return crate, "tests" if "--test" in words else "proof"


def look(root, seen):
    """Adds what the processes under this one have used so far."""
    found = {number: (parent, start, used) for number, parent, start, used in processes()}
    ours = {root: None}
    grew = True
    while grew:
        grew = False
        for number, (parent, start, used) in found.items():
            if number in ours:
                continue
            known = seen.get((number, start))
            if known is None and parent not in ours:
                continue
            if known is None:
                above = ours[parent]
                known = Process(work_of(number, above.work if above else None))
                seen[number, start] = known
            elif known.work is None:
                known.work = work_of(number, None)
            known.seconds = used
            ours[number] = known
            grew = True


def table(spent, all_seconds, wall):
    rows = ["| Crate | proof | tests | edits | in all |", "|---|---|---|---|---|"]
    sums = collections.Counter()
    for crate in sorted(spent, key=lambda it: -sum(spent[it].values())):
        sums.update(spent[crate])
        cells = [f"{spent[crate][kind]:.0f}" for kind in KINDS]
        rows.append(f"| `{crate}` | {' | '.join(cells)} | {sum(spent[crate].values()):.0f} |")
    seen = sum(sums.values())
    rows.append(f"| other | | | | {max(all_seconds - seen, 0):.0f} |")
    cells = [f"{sums[kind]:.0f}" for kind in KINDS]
    rows.append(f"| in all | {' | '.join(cells)} | {max(all_seconds, seen):.0f} |")
    return "\n".join([f"Processor seconds; {wall:.0f} s by the clock.", "", *rows])


def main():
    here = pathlib.Path(__file__).resolve().parent.parent
    room = tempfile.mkdtemp(prefix="gate-")
    try:
        clone = f"{room}/clone"
        subprocess.run(["git", "clone", "-q", str(here), clone], check=True)
        begun = time.monotonic()
        run = subprocess.Popen(["rt", "ci", "--anew", *sys.argv[1:]], cwd=clone, stdout=sys.stderr)
        seen = {}
        try:
            while run.poll() is None:
                look(run.pid, seen)
                time.sleep(PAUSE)
        finally:
            if run.poll() is None:
                run.terminate()
                run.wait()
        wall = time.monotonic() - begun
        used = resource.getrusage(resource.RUSAGE_CHILDREN)
        spent = collections.defaultdict(collections.Counter)
        for process in seen.values():
            if process.work:
                crate, kind = process.work
                spent[crate][kind] += process.seconds
        print(table(spent, used.ru_utime + used.ru_stime, wall))
        return run.returncode
    finally:
        shutil.rmtree(room, ignore_errors=True)


sys.exit(main())
