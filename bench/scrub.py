#!/usr/bin/env python3
"""Scrubs an array of six disks and three levels in memory-backed storage, and prints wall time, processor time and memory.

usage: bench/scrub.py [GIB] [STRIPES]     2 GiB of data and 1,000,000 stripes where nothing is given
After a sync, a scrub of the whole array is timed, then one with a rotten block in each of 100 files, and a scrub of the stripes that are
bad since. Where the real snapraid is found on the PATH, it does the same over the same trees. How many blocks either finds is compared
with how many rotted.

Then the plan alone is timed: this program scrubs 0 percent of a table of so many stripes, which checks none of them. What that takes more
than `status` is the plan's.
"""
import os
import re
import subprocess
import sys
import tempfile

sys.path.insert(0, os.path.dirname(os.path.abspath(__file__)))
import arrays  # noqa: E402

ROTTEN = 100
BLOCK = 256 << 10


def rot(tree):
    """Other bytes in the first block of each of some files, which keep their size and time. Gives what undoes it."""
    held = []
    for folder, _, names in sorted(os.walk(tree)):
        for name in sorted(names):
            path = os.path.join(folder, name)
            if len(held) < ROTTEN:
                held.append((path, changed(path, 1000, b"rotten")))
    return held


def changed(path, at, data):
    """Writes these bytes into a file, which keeps its time, and gives those that were there."""
    times = os.stat(path)
    with open(path, "r+b") as file:
        file.seek(at)
        before = file.read(len(data))
        file.seek(at)
        file.write(data)
    os.utime(path, ns=(times.st_atime_ns, times.st_mtime_ns))
    return before


def found(tool, text):
    """How many wrong blocks a scrub says that it found."""
    if tool == "this":
        return len(re.findall("^silent ", text, re.MULTILINE))
    counted = re.search("([0-9]+) data errors", text)
    return int(counted[1]) if counted else 0


def whole_arrays(total):
    with tempfile.TemporaryDirectory(dir="/dev/shm") as room:
        count = arrays.make_files(room, "files", total, 4 << 20)
        tree = os.path.join(room, "files")
        arrays.heading(f"{arrays.DISKS} disks, {arrays.LEVELS} levels, blocks of 256 KiB, {count} files; a block rots in each of {ROTTEN}", "run")
        for tool, words in arrays.tools().items():
            command = [*words, "-c", arrays.configuration(room, "files", tool)]
            subprocess.run([*command, "sync"], stdout=subprocess.DEVNULL, check=True)
            rows = [("scrub, whole", arrays.measured([*command, "-p", "full", "scrub"]), 0)]
            held = rot(tree)
            rows.append(("scrub, rotten", arrays.measured([*command, "-p", "full", "scrub"]), len(held)))
            rows.append(("scrub, bad stripes", arrays.measured([*command, "-p", "bad", "scrub"]), len(held)))
            for path, before in held:
                changed(path, 1000, before)
            for name, (wall, spent, memory, text), rotten in rows:
                arrays.row(name, tool, wall, spent, memory // 1024)
                if found(tool, text) != rotten:
                    sys.exit(f"{tool}: {name}: {found(tool, text)} blocks found in place of {rotten}:\n{text[-2000:]}")


def plans(stripes):
    with tempfile.TemporaryDirectory(dir="/dev/shm") as room:
        maker = os.path.join(os.path.dirname(os.path.abspath(__file__)), "make_content.py")
        subprocess.run([sys.executable, maker, room, str(max(1, stripes // 10)), str(stripes), "1"], check=True)
        os.makedirs(os.path.join(room, "d1"), exist_ok=True)
        os.chdir(room)
        rows = []
        for words in (["status"], ["scrub", "-p", "0", "-o", "0"]):
            rows.append(min(arrays.measured([arrays.PROGRAM, *words, "-c", "array.conf"]) for _ in range(5)))
        (status, _, held, said), (scrub, _, more, text) = rows
        if f"stripes {stripes}" not in said or "scrub: 0 stripes checked, 0 findings" not in text:
            sys.exit(f"not planned:\n{said}\n{text}")
        os.chdir("/")
        print(f"plan over {stripes} stripes: {scrub - status:.3f} s more than status, {(more - held) * 1024 / stripes:.1f} bytes a stripe, "
              f"the buffers for windows among them")


def main():
    whole_arrays(int(float(sys.argv[1]) * (1 << 30)) if len(sys.argv) > 1 else 2 << 30)
    plans(int(sys.argv[2]) if len(sys.argv) > 2 else 1_000_000)


main()
