#!/usr/bin/env python3
"""Makes six folders of about 1 GiB together, syncs them with the built program with one and with three levels, and prints speed and memory of both.

usage: bench/levels.py [FILES [FILE_KIB [BLOCK_KIB]]]     43 files on each disk, each of 4,096 KiB, blocks of 256 KiB
The speed is in 10^6 bytes of data a second, till the disk holds the parity; the memory is the most that the program held at a time, asked of the system
every 5 ms. Files are read from the page cache where memory holds them. Let nothing else run meanwhile.
"""
import os
import subprocess
import sys
import tempfile
import time

TOP = os.path.dirname(os.path.dirname(os.path.abspath(__file__)))
PROGRAM = os.path.join(TOP, "crates", "snapraid", "out", "snapraid")
DISKS = ["d1", "d2", "d3", "d4", "d5", "d6"]
KEYWORDS = ["parity", "2-parity", "3-parity", "4-parity", "5-parity", "6-parity"]


def make(room, files, kib):
    for disk in DISKS:
        folder = os.path.join(room, disk)
        os.mkdir(folder)
        for number in range(files):
            with open(os.path.join(folder, f"file{number:06}"), "wb") as file:
                file.write(os.urandom(1024 * kib))


def configure(room, levels, block):
    """Writes the configuration of that many levels, whose parity and content files are its own, and gives its name."""
    lines = [f"blocksize {block}"]
    lines += [f"{keyword} parity{level + 1}-of-{levels}" for level, keyword in enumerate(KEYWORDS[:levels])]
    lines += [f"content content-of-{levels}"] + [f"data {disk} {disk}" for disk in DISKS]
    name = f"array{levels}.conf"
    with open(os.path.join(room, name), "w") as file:
        file.write("\n".join(lines) + "\n")
    return name


def most_memory(process):
    """The most memory in KiB that a running process held so far, 0 where that is not known any more."""
    try:
        with open(f"/proc/{process}/status") as status:
            return max((int(line.split()[1]) for line in status if line.startswith("VmHWM:")), default=0)
    except (FileNotFoundError, ProcessLookupError):
        return 0


def run(room, configuration):
    """Runs a sync, and gives its seconds, the most memory that it held in MiB, and the last line that it printed."""
    start = time.monotonic()
    child = subprocess.Popen([PROGRAM, "sync", "-c", configuration], cwd=room, stdout=subprocess.PIPE)
    memory = 0
    while child.poll() is None:
        memory = max(memory, most_memory(child.pid))
        time.sleep(0.005)
    taken = time.monotonic() - start
    text = child.stdout.read().decode()
    if child.returncode != 0:
        sys.exit(f"the sync failed: {text}")
    return taken, memory / 1024, text.splitlines()[-1]


def main():
    given = [int(word) for word in sys.argv[1:]]
    files, kib, block = given + [43, 4096, 256][len(given):]
    with tempfile.TemporaryDirectory() as room:
        make(room, files, kib)
        size = 1024 * kib * files * len(DISKS)
        for levels in [1, 3]:
            taken, memory, last = run(room, configure(room, levels, block))
            print(f"{levels} levels: {taken:.2f} s, {size / taken / 1e6:.0f} MB/s, {memory:.1f} MiB; {last}")


main()
