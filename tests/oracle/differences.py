#!/usr/bin/env python3
"""Runs every entry of docs/DIFFERENCES.md again.

usage: differences.py RELEASE [CHECKED [OLD]]
       differences.py -i FOLDER

RELEASE, CHECKED and OLD are the programs that build.sh names, OLD the one of its -n. A run is good if
the Rust gives what entries.py records, and if that differs from the document's answer, or equals it
where the run says so. Without CHECKED or OLD the runs that need it are left out; an entry that shows
no difference without them is listed as not run, and not counted.

-i writes each input to a file of FOLDER, to be fed to any other program: D2-1.slot is the slot of the
first run of D2, D9-1.load the description of the first run of D9.
"""
import os
import re
import subprocess
import sys

sys.dont_write_bytecode = True
from entries import entries
from serving import Program

PAGE = os.path.join(os.path.dirname(os.path.abspath(__file__)), "..", "..", "docs", "DIFFERENCES.md")


def in_one_gibibyte(path, slot):
    """How `read` ends with 1 GiB of address space: the signal, and the first line of its errors."""
    command = ["sh", "-c", 'ulimit -v 1048576 && exec "$0" read', path]
    done = subprocess.run(command, input=slot, capture_output=True, env={**os.environ, "RUST_BACKTRACE": "0"})
    errors = done.stderr.decode().strip().split("\n")
    return f"signal {-done.returncode}, {errors[0]}"


def answer(programs, run):
    program = programs[run.build]
    if run.command == "limited":
        return in_one_gibibyte(program.path, run.data)
    return run.view(program, program.ask(run.command, run.data))


def short(text):
    text = text.replace("\n", " / ")
    return text if len(text) <= 160 else text[:157] + "..."


def told(run, now):
    """A run in words, and whether it was good."""
    if now != run.rust:
        return f"{run.what}: recorded {short(run.rust)}, now {short(now)}", False
    if run.same != (run.document == run.rust):
        return f"{run.what}: the document {short(run.document)}, the Rust {short(run.rust)}, wrongly marked", False
    if run.same:
        return f"{run.what}: both {short(run.rust)}", True
    return f"{run.what}: the document {short(run.document)}, the Rust {short(run.rust)}", True


def outcome(runs, good, left_out):
    if not all(good):
        return "FAILED"
    shown = any(not run.same for run in runs)
    return "not run" if not runs or left_out and not shown else "ok"


def unmatched():
    """The names that stand in docs/DIFFERENCES.md alone, or in entries.py alone."""
    with open(PAGE, encoding="utf-8") as page:
        told_there = set(re.findall(r"^(?:\*\*|\| )([DS]\d+a?)[. ]", page.read(), re.MULTILINE))
    return sorted(told_there ^ {entry.name for entry in entries()})


def run_all(programs):
    """Prints a line for each entry; gives how many were good and how many were not."""
    count = {"ok": 0, "FAILED": 0, "not run": 0}
    for entry in entries():
        runs = [run for run in entry.runs if run.build in programs]
        results = [told(run, answer(programs, run)) for run in runs]
        left_out = [f"{run.what}: no program for it" for run in entry.runs if run.build not in programs]
        result = outcome(runs, [good for _, good in results], left_out)
        words = [text for text, _ in results] + left_out + [entry.why_not] * bool(entry.why_not)
        print(result, entry.name, entry.title, "|", "; ".join(words), flush=True)
        count[result] += 1
    for name in unmatched():
        print("FAILED", name, "stands in docs/DIFFERENCES.md or in entries.py, but not in both")
        count["FAILED"] += 1
    return count["ok"], count["FAILED"]


def write_inputs(folder):
    os.makedirs(folder, exist_ok=True)
    for entry in entries():
        for number, run in enumerate(entry.runs, 1):
            kind, data = "slot", run.data
            if run.command == "load":
                kind, data = "load", run.data.replace(";", "\n").encode() + b"\n"
            with open(os.path.join(folder, f"{entry.name}-{number}.{kind}"), "wb") as file:
                file.write(data)


def main(words):
    if len(words) == 2 and words[0] == "-i":
        write_inputs(words[1])
        return 0
    if not 1 <= len(words) <= 3 or not all(os.access(path, os.X_OK) for path in words):
        print(__doc__, file=sys.stderr)
        return 2
    programs = {build: Program(path) for build, path in zip(("release", "checked", "old"), words)}
    good, bad = run_all(programs)
    for program in programs.values():
        program.close()
    print(f"{good} passed, {bad} failed")
    return bad > 0


if __name__ == "__main__":
    sys.exit(main(sys.argv[1:]))
