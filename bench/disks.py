#!/usr/bin/env python3
"""Times the commands over many disks, also over disks that are slow, beside the real snapraid, and prints a table.

usage: bench/disks.py [PROGRAM] [--only WORD]
The built program of this repository where none is given; with --only, the arrays whose names hold the word. A folder becomes a slow disk
by slow_disks.c: 50 MB/s, and 20 ms a seek. Each array is in memory-backed storage (it takes 4 GiB), so that nothing but the slow disks
and the processors is measured. Both tools run as they are set by default. Of a slow array the floor is the time in which one disk is read.

Over each array come a sync, a scrub of all, a check, and a fix of two disks that are lost; the files that it makes are compared with those
that were there. The last column is the time of the real tool by that of this one: above 1 this one is faster.
"""
import argparse
import os
import random
import shutil
import subprocess
import sys
import tempfile
from dataclasses import dataclass

sys.path.insert(0, os.path.dirname(os.path.abspath(__file__)))
import arrays  # noqa: E402
from fix import differ  # noqa: E402

RATE, SEEK = 50_000_000, 0.02
LOST = (1, 2)
LEVELS = 3
KEYWORDS = ("parity", "2-parity", "3-parity")
COMMANDS = (("sync",), ("scrub", "-p", "full"), ("check",), ("fix",))
# It wants each disk on a device of its own, and its own files elsewhere.
REAL = ("--test-skip-device", "--test-skip-self", "--test-force-order-alpha", "--no-warnings")


@dataclass
class Kind:
    """So many disks of so many bytes, in files of equal size."""
    name: str
    disks: int
    size: int
    files: int
    block: int
    slow: bool

    def floor(self):
        return self.size / RATE if self.slow else None


KINDS = (
    Kind("20 slow disks of 60 MB", 20, 60_000_000, 3, 256, True),
    Kind("6 slow disks of 60 MB", 6, 60_000_000, 3, 256, True),
    Kind("12 disks of 160 MB, blocks of 1 MiB", 12, 160_000_000, 4, 1024, False),
    Kind("6 disks of 340 MB, large files", 6, 340_000_000, 5, 256, False),
    Kind("6 disks of 340 MB, mixed files", 6, 340_000_000, 2000, 256, False),
    Kind("6 disks of 340 MB, blocks of 1 KiB", 6, 340_000_000, 5, 1, False),
)


class Room:
    """The array of a kind for both tools: one tree, and parity and content of each tool's own."""

    def __init__(self, kind, room, library):
        self.kind, self.room, self.library = kind, room, library
        rnd = random.Random(3)
        pool = rnd.randbytes(8 << 20)
        for disk in range(1, kind.disks + 1):
            os.makedirs(self.disk(disk))
            for number in range(kind.files):
                self.make_file(f"{self.disk(disk)}/file{number}", kind.size // kind.files, pool, rnd)

    @staticmethod
    def make_file(name, size, pool, rnd):
        with open(name, "wb") as out:
            while size > 0:
                at = rnd.randrange(len(pool) // 2)
                piece = pool[at:at + min(size, 1 << 20)]
                out.write(piece)
                size -= len(piece)
        os.utime(name, ns=(10**9, 10**18 + rnd.randrange(1, 10**9)))

    def disk(self, number):
        return f"{self.room}/disks/d{number}"

    def configuration(self, tool):
        """Each level is on a disk of its own, and content on none that is slow."""
        lines = [f"blocksize {self.kind.block}"]
        for level in range(LEVELS):
            folder = f"{self.room}/disks/{tool}{level}"
            os.makedirs(folder, exist_ok=True)
            lines.append(f"{KEYWORDS[level]} {folder}/parity")
        # The real tool asks for one copy more than there are levels.
        lines += [f"content {self.room}/{tool}.content{copy}" for copy in range(LEVELS + 1)]
        lines += [f"data d{disk} {self.disk(disk)}/" for disk in range(1, self.kind.disks + 1)]
        name = f"{self.room}/{tool}.conf"
        with open(name, "w", encoding="ascii") as out:
            out.write("\n".join(lines) + "\n")
        return name

    def forget(self, tool):
        """Both tools work on the same tree, so the first one's parity goes to make room."""
        for level in range(LEVELS):
            shutil.rmtree(f"{self.room}/disks/{tool}{level}", ignore_errors=True)

    def lose(self):
        for disk in LOST:
            os.makedirs(f"{self.room}/kept", exist_ok=True)
            os.rename(self.disk(disk), f"{self.room}/kept/d{disk}")
            os.mkdir(self.disk(disk))

    def find(self, tool):
        """The lost disks are compared with what was restored, and put back."""
        for disk in LOST:
            wrong = differ(f"{self.room}/kept/d{disk}", self.disk(disk))
            if wrong is not None:
                sys.exit(f"{tool}: not restored: {wrong}")
            shutil.rmtree(self.disk(disk))
            os.rename(f"{self.room}/kept/d{disk}", self.disk(disk))

    def words(self, command):
        """What is preloaded is so for the tool alone, and not for what takes its time."""
        if not self.kind.slow:
            return list(command)
        slow = {"LD_PRELOAD": self.library, "SLOW_ROOT": f"{self.room}/disks", "SLOW_RATE": RATE, "SLOW_SEEK": SEEK}
        return ["env", *(f"{name}={value}" for name, value in slow.items()), *command]

    def times(self, tool, first):
        """Wall time, processor time and memory of each command."""
        conf = self.configuration(tool)
        for command in COMMANDS:
            if command[0] == "fix":
                self.lose()
            wall, spent, memory, _ = arrays.measured(self.words([*first, command[0], "-c", conf, *command[1:]]), 0)
            if command[0] == "fix":
                self.find(tool)
            yield wall, spent, memory // 1024
        self.forget(tool)


def tools(program):
    found = [("this", [program])]
    real = shutil.which("snapraid")
    if real is not None and os.path.realpath(real) != os.path.realpath(program):
        found.append(("real", [real, *REAL]))
    return found


def print_rows(kind, room, found):
    """A row for each command: the figures of each tool, and how they compare."""
    rows = [list(room.times(name, words)) for name, words in found]
    for command, figures in zip(COMMANDS, zip(*rows)):
        cells = [kind.name, command[0], f"{kind.floor():.1f}" if kind.slow else ""]
        for wall, spent, memory in figures:
            cells += [wall, spent, memory]
        cells.append(figures[1][0] / figures[0][0] if len(figures) > 1 else "")
        arrays.row(*cells)


def main():
    words = argparse.ArgumentParser(description=__doc__.splitlines()[0])
    words.add_argument("program", nargs="?", default=arrays.PROGRAM)
    words.add_argument("--only", default="")
    given = words.parse_args()
    found = tools(os.path.abspath(given.program))
    print(f"{LEVELS} levels; slow disks: {RATE // 10**6} MB/s, {SEEK * 1000:.0f} ms a seek; {os.cpu_count()} processors")
    columns = ["array", "command", "floor s"]
    for name, _ in found:
        columns += [f"{name}: wall s", "processor s", "memory MiB"]
    print(f"| {' | '.join([*columns, 'real / this'])} |")
    print("|---" * (len(columns) + 1) + "|", flush=True)
    with tempfile.TemporaryDirectory() as built:
        library = os.path.join(built, "slow_disks.so")
        source = os.path.join(arrays.TOP, "bench", "slow_disks.c")
        subprocess.run(["gcc", "-O2", "-shared", "-fPIC", "-o", library, source, "-ldl", "-lpthread"], check=True)
        for kind in KINDS:
            if given.only in kind.name:
                with tempfile.TemporaryDirectory(dir="/dev/shm") as room:
                    print_rows(kind, Room(kind, room, library), found)


if __name__ == "__main__":
    main()
