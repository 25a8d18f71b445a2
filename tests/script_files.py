#!/usr/bin/env python3
"""Runs the scripts of tests/scripts on the built program.

    tests/script_files.py [NAME..]

shows all that differs, for these scripts or for all, and closes with 'N passed, N failed'. tests/run.py runs them too.

A case is a script and what it must do:
    NAME.lua        the script
    NAME.repeat     in its place a count on the first line, and a text: the script is the text so many times
    NAME.out        what must stand on standard output
    NAME.err        what must stand on standard error (nothing where it is missing)
    NAME.status     the exit status (0 where it is missing)

A script runs in its own folder by the one word NAME.lua, so that is its name in the positions of errors. What must be printed comes from
Lua 5.4, and where the language differs from it, as the script's first line then says, from its rules; never from the program.
"""
import concurrent.futures
import difflib
import os
import pathlib
import subprocess
import sys
import tempfile

SCRIPTS = pathlib.Path(__file__).resolve().parent / "scripts"
PROGRAM = SCRIPTS.parent.parent / "crates" / "lanes" / "out" / "lanes"
SECONDS = 60
WIDTH = 100


def names():
    """The names of all cases."""
    return sorted({path.stem for end in ("lua", "repeat") for path in SCRIPTS.glob(f"*.{end}")})


def wanted(name):
    """What must stand on standard output and on standard error, and the status."""
    def content(end):
        path = SCRIPTS / f"{name}.{end}"
        return path.read_bytes() if path.is_file() else b""
    return content("out"), content("err"), int(content("status") or b"0")


def ended(command, name, seconds=SECONDS):
    """A run of a command on the script of this name, or None where it took too long."""
    def run_in(folder):
        return subprocess.run([*command, f"{name}.lua"], cwd=folder, stdin=subprocess.DEVNULL, capture_output=True, timeout=seconds)

    try:
        repeat = SCRIPTS / f"{name}.repeat"
        if not repeat.is_file():
            return run_in(SCRIPTS)
        with tempfile.TemporaryDirectory() as folder:
            count, text = repeat.read_bytes().split(b"\n", 1)
            (pathlib.Path(folder) / f"{name}.lua").write_bytes(text * int(count))
            return run_in(folder)
    except subprocess.TimeoutExpired:
        return None


def lines_of(text):
    return text.decode("utf-8", "backslashreplace").split("\n")


def run(name):
    """Runs one case, and answers what differs, as lines: first one that says it in short, then all of it."""
    out, err, status = wanted(name)
    run = ended([str(PROGRAM)], name)
    if run is None:
        return [f"no end after {SECONDS} seconds"]
    short, all_lines = [], []
    if run.returncode != status:
        short.append(f"status {run.returncode}, wanted {status}")
    for stream, old, new in (("stdout", out, run.stdout), ("stderr", err, run.stderr)):
        if old == new:
            continue
        a, b = lines_of(old), lines_of(new)
        at = next((i for i, (x, y) in enumerate(zip(a, b)) if x != y), min(len(a), len(b)))
        line = [repr(x[at][:WIDTH]) if at < len(x) else "no such line" for x in (b, a)]
        short.append(f"{stream} line {at + 1}: {line[0]}, wanted {line[1]}")
        all_lines += difflib.unified_diff(a, b, f"{stream} wanted", f"{stream} found", lineterm="")
    return ["; ".join(short), *all_lines] if short else []


def run_all(which):
    """Each of these cases and what differs there, by several runs at once."""
    with concurrent.futures.ThreadPoolExecutor(os.cpu_count()) as pool:
        yield from zip(which, pool.map(run, which))


def main():
    unknown = set(sys.argv[1:]) - set(names())
    if unknown:
        sys.exit(f"no such script: {', '.join(sorted(unknown))}")
    if not os.access(PROGRAM, os.X_OK):
        sys.exit(f"the program is not built ({PROGRAM})")
    passed = failed = 0
    for name, lines in run_all(sys.argv[1:] or names()):
        passed, failed = (passed, failed + 1) if lines else (passed + 1, failed)
        if lines:
            print(f"FAILED: tests/scripts/{name}.lua: {lines[0]}", *lines[1:], sep="\n    ")
    print(f"{passed} passed, {failed} failed")
    return 1 if failed else 0


if __name__ == "__main__":
    sys.exit(main())
