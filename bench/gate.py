"""Runs the gate from nothing in a copy of the repository, and prints what each crate costs: its proofs, its tests and its must-fail edits,
in processor seconds. Then it prints the sum, the most expensive crates, the longest process and what two processors would take.

usage: bench/gate.sh            the whole gate
       bench/gate.sh NAME ..    these crates and those below them

Each process of the prover that this gate began is looked at five times a second. It tells which crate it is for, and whether for its tests; one
that works in a folder for an edit is counted to the edits. What is left (reading, linking, running tests and programs) is 'all else'.
"""

import os
import re
import resource
import shutil
import subprocess
import sys
import tempfile
import time

TOP = os.path.dirname(os.path.dirname(os.path.abspath(__file__)))
TICKS = os.sysconf("SC_CLK_TCK")
PARTS = ("proofs", "tests", "edits")
# In processor seconds: 75 minutes of four processors.
BUDGET = 18_000


def read(path):
    with open(path, "rb") as file:
        return file.read()


def part_of(words, folder):
    """The crate and the part that a process of the prover works on, by its words and the folder that it works in."""
    crate = words[words.index(b"--crate-name") + 1].decode()
    if "/rt-edit-" in folder:
        return crate, "edits"
    return crate, "tests" if b"--test" in words else "proofs"


def parent_of(process):
    return int(read(f"/proc/{process}/stat").rpartition(b")")[2].split()[1])


def is_below(process, gate):
    """Whether a process was begun by the gate, or by one that the gate began."""
    while process > 1:
        if process == gate:
            return True
        process = parent_of(process)
    return False


def look(seen, gate):
    """Notes of each of the gate's processes of the prover its crate, its part, its processor seconds, with those of the copies of itself that it
    has waited for, and its seconds by the clock."""
    for process in filter(str.isdigit, os.listdir("/proc")):
        at = f"/proc/{process}"
        try:
            words = read(f"{at}/cmdline").split(b"\0")
            if os.path.basename(words[0]) != b"rattle" or b"--crate-name" not in words:
                continue
            fields = read(f"{at}/stat").rpartition(b")")[2].split()
            parent = read(f"/proc/{int(fields[1])}/cmdline").split(b"\0")[0]
            if os.path.basename(parent) == b"rattle" or not is_below(int(process), gate):
                continue
            spent = sum(map(int, fields[11:15])) / TICKS
            lasted = time.clock_gettime(time.CLOCK_BOOTTIME) - int(fields[19]) / TICKS
            seen[process, fields[19]] = (*part_of(words, os.readlink(f"{at}/cwd")), spent, lasted)
        except (OSError, ValueError, IndexError):
            # it has ended meanwhile
            continue


def rows_of(seen):
    """The name of each crate that was proved, with what its parts cost and what they cost together, in the order of crates.txt."""
    with open(f"{TOP}/crates.txt", encoding="utf-8") as file:
        names = re.findall(r"^(\w+)[^#\n]*:", file.read(), re.M)
    cost = {}
    for crate, part, spent, _ in seen.values():
        cost[crate, part] = cost.get((crate, part), 0) + spent
    rows = [(name, *(cost.get((name, part), 0) for part in PARTS)) for name in names]
    return [(*row, sum(row[1:])) for row in rows if sum(row[1:])]


def print_table(rows):
    sums = [sum(column) for column in list(zip(*rows))[1:]] or [0] * 4
    print("| crate | proofs | tests | edits | together |\n|---|---|---|---|---|")
    for name, *spent in [*rows, ("all", *sums)]:
        print(f"| {name} | " + " | ".join(f"{seconds:.0f}" for seconds in spent) + " |")


def print_summary(rows, seen, whole, minutes):
    """Prints what the whole run cost. Two processors take half of its processor seconds at least, and no less than its longest process."""
    by_crate = sum(row[-1] for row in rows)
    print(f"\nthe whole: {whole:.0f} processor seconds of {BUDGET}, {whole - by_crate:.0f} of them for all else", end="")
    print(f"; {minutes:.1f} minutes by the clock on {os.cpu_count()} processors")
    expensive = sorted(rows, key=lambda row: -row[-1])[:5]
    print("most expensive crates: " + ", ".join(f"{row[0]} {row[-1]:.0f} ({row[-1] / whole:.0%})" for row in expensive))
    crate, part, _, lasted = max(seen.values(), key=lambda process: process[-1], default=("no crate", "", 0, 0))
    print(f"longest process: {lasted:.0f} seconds by the clock, {crate} {part}")
    print(f"on two processors: at least {max(whole / 2, lasted) / 60:.0f} minutes")


def main(names):
    room = tempfile.mkdtemp(prefix="gate-")
    try:
        to = f"{room}/copy"
        shutil.copytree(TOP, to, ignore=lambda folder, found: {"out", ".git"} & set(found))
        begun, seen = time.monotonic(), {}
        gate = subprocess.Popen(["rt", "ci", "--anew", *names], cwd=to)
        while gate.poll() is None:
            look(seen, gate.pid)
            time.sleep(0.2)
        spent = resource.getrusage(resource.RUSAGE_CHILDREN)
        rows = rows_of(seen)
        print_table(rows)
        print_summary(rows, seen, spent.ru_utime + spent.ru_stime, (time.monotonic() - begun) / 60)
        return gate.returncode
    finally:
        shutil.rmtree(room, ignore_errors=True)


sys.exit(main(sys.argv[1:]))
