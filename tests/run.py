#!/usr/bin/env python3
"""Runs the scripts of tests/ on the built program, and closes with 'N passed, N failed'.

A case is a folder with any of these files:
    script.lua      the script; `words` is then 'script.lua' where it is not given
    script.repeat   a count on the first line, and a text: the script is the text so many times
    words           the words of the command line, one a line
    stdin           what stands on standard input (nothing where it is missing)
    output          'full' or 'closed', where standard output takes nothing
    stdout, stderr  what must be written (nothing where they are missing)
    status          the exit status that is wanted (0 where it is missing)

Each row of grammar_rows.py, label_rows.py and scope_rows.py is a case too: a script on standard input, which has no fault, or one
with this line and text. And so is each script of scripts/, of which one line is shown where it fails; script_files.py shows all.

With --after LOG the counts of a run of `rt ci` in LOG are added.
"""
import concurrent.futures
import difflib
import os
import pathlib
import re
import shutil
import subprocess
import sys
import tempfile

sys.dont_write_bytecode = True
import grammar_rows
import label_rows
import scope_rows
import script_files

TESTS = pathlib.Path(__file__).resolve().parent
PROGRAM = TESTS.parent / "crates" / "lanes" / "out" / "lanes"
SECONDS = 60


def content(case, name):
    path = case / name
    return path.read_bytes() if path.is_file() else b""


def prepare(case, folder):
    """Copies the case and makes its script, where that is written as a repetition."""
    shutil.copytree(case, folder, dirs_exist_ok=True)
    repeat = folder / "script.repeat"
    if repeat.is_file():
        count, text = repeat.read_bytes().split(b"\n", 1)
        (folder / "script.lua").write_bytes(text * int(count))


def run(case):
    """Runs one case, and answers what differs, as lines."""
    words = case / "words"
    arguments = words.read_text().splitlines() if words.is_file() else ["script.lua"]
    output = content(case, "output").strip()
    with tempfile.TemporaryDirectory() as name:
        folder = pathlib.Path(name)
        prepare(case, folder)
        command = [str(PROGRAM), *arguments]
        out = subprocess.PIPE
        if output == b"full":
            out = open("/dev/full", "wb")
        elif output == b"closed":
            command = ["sh", "-c", 'exec "$0" "$@" >&-', *command]
        try:
            ended = subprocess.run(command, cwd=folder, input=content(case, "stdin"), stdout=out,
                                   stderr=subprocess.PIPE, timeout=SECONDS)
        except subprocess.TimeoutExpired:
            return [f"no end after {SECONDS} seconds"]
    wanted = int(content(case, "status") or b"0")
    lines = [] if ended.returncode == wanted else [f"status {ended.returncode}, wanted {wanted}"]
    lines += differences("stdout", content(case, "stdout"), ended.stdout or b"")
    lines += differences("stderr", content(case, "stderr"), ended.stderr)
    return lines


def run_row(row):
    """Runs a row, and answers what differs, as lines. A script without a fault is to be accepted, and returns at once."""
    script, fault = row
    first = script.find("\n") + 1 if script.startswith("#") else 0
    script = script if fault else f"{script[:first]}do return end {script[first:]}"
    wanted = f"lanes: stdin:{fault}\n" if fault else ""
    status = 3 if fault else 0
    try:
        ended = subprocess.run([str(PROGRAM), "-"], input=script.encode(), capture_output=True, timeout=SECONDS)
    except subprocess.TimeoutExpired:
        return [f"no end after {SECONDS} seconds"]
    lines = [] if ended.returncode == status else [f"status {ended.returncode}, wanted {status}"]
    return lines + differences("stdout", b"", ended.stdout) + differences("stderr", wanted.encode(), ended.stderr)


def all_cases():
    """What is run, and what differs there, as lines."""
    for case in sorted(path for path in TESTS.iterdir() if path.is_dir() and path != script_files.SCRIPTS):
        yield f"tests/{case.name}", run(case)
    for module in (grammar_rows, label_rows, scope_rows):
        rows = list(module.rows())
        with concurrent.futures.ThreadPoolExecutor(os.cpu_count()) as pool:
            for row, lines in zip(rows, pool.map(run_row, rows)):
                yield f"the row {row[0][:200]!r} of tests/{module.__name__}.py", lines
    for name, lines in script_files.run_all(script_files.names()):
        yield f"tests/scripts/{name}.lua", lines[:1]


def differences(name, wanted, found):
    if wanted == found:
        return []
    old = wanted.decode("utf-8", "backslashreplace").splitlines()
    new = found.decode("utf-8", "backslashreplace").splitlines()
    shown = list(difflib.unified_diff(old, new, f"{name} wanted", f"{name} found", lineterm=""))
    return shown or [f"{name} differs in its line ends"]


def counts_of(log):
    """The counts of a run of `rt ci`: a run without its last line, or with another status than its counts say, failed."""
    text = pathlib.Path(log).read_text(errors="replace")
    counts = re.findall(r"^(\d+) passed, (\d+) failed", text, re.MULTILINE)
    status = re.findall(r"^rt ci: status (\d+)$", text, re.MULTILINE)
    if not counts or not status:
        return 0, 1
    passed, failed = (int(number) for number in counts[-1])
    return passed, failed if failed or status[-1] == "0" else 1


def main():
    passed, failed = (0, 0)
    if len(sys.argv) == 3 and sys.argv[1] == "--after":
        passed, failed = counts_of(sys.argv[2])
    elif len(sys.argv) != 1:
        sys.exit("usage: run.py [--after LOG]")
    if not os.access(PROGRAM, os.X_OK):
        print(f"FAILED: the program is not built ({PROGRAM})")
        failed += 1
    else:
        for name, lines in all_cases():
            passed, failed = (passed, failed + 1) if lines else (passed + 1, failed)
            if lines:
                print(f"FAILED: {name}", *lines, sep=": " if len(lines) == 1 else "\n    ")
    print(f"{passed} passed, {failed} failed")
    return 1 if failed else 0


sys.exit(main())
