#!/usr/bin/env python3
"""Syncs arrays of six disks and three levels in memory-backed storage, and prints wall time, processor time and memory.

usage: bench/sync.py [GIB] [--parts N]     2 GiB of data where nothing is given
Three syncs are timed: the first of large files (30 MiB each), the first of mixed files (about 117 KiB each), and one with nothing to
do over the mixed files. Where the real snapraid is found on the PATH, it syncs the same trees beside this program. With --parts the
large files alone are synced by this program, over one level in one file and then in N files. The files behind the first are used where
there are more than 6 * 10^9 bytes of data for each file before them: `12 --parts 3` takes 15 GiB of memory.
"""
import argparse
import os
import resource
import subprocess
import sys
import tempfile
import time

sys.path.insert(0, os.path.dirname(os.path.abspath(__file__)))
import arrays  # noqa: E402


def run(command):
    before = resource.getrusage(resource.RUSAGE_CHILDREN)
    start = time.monotonic()
    subprocess.run(command, stdout=subprocess.DEVNULL, check=True)
    wall = time.monotonic() - start
    after = resource.getrusage(resource.RUSAGE_CHILDREN)
    spent = after.ru_utime + after.ru_stime - before.ru_utime - before.ru_stime
    return wall, spent


def peak(command):
    """The most memory of one run, in MiB, by a process of its own that waits for it."""
    script = ("import resource, subprocess, sys; subprocess.run(sys.argv[1:], stdout=subprocess.DEVNULL, check=True); "
              "print(resource.getrusage(resource.RUSAGE_CHILDREN).ru_maxrss // 1024)")
    return int(subprocess.run([sys.executable, "-c", script, *command], stdout=subprocess.PIPE, check=True).stdout)


def sync_parts(total, parts):
    """The same files over one level in one file, and in several."""
    with tempfile.TemporaryDirectory(dir="/dev/shm") as room:
        count = arrays.make_files(room, "large", total, 30 << 20)
        arrays.heading(f"{arrays.DISKS} disks, one level, blocks of 256 KiB, {count} large files", "files of the level")
        for files in (1, parts):
            tool = f"in{files}"
            command = [arrays.PROGRAM, "-c", arrays.configuration(room, "large", tool, levels=1, parts=files), "sync"]
            wall, spent = run(command)
            held = [name for name in arrays.parity_files(room, "large", tool, 0, files) if os.path.getsize(name) > 0]
            arrays.row(f"{files}, {len(held)} with bytes", "this", wall, spent, "-")
            for name in held:
                os.remove(name)


def main():
    words = argparse.ArgumentParser(description=__doc__.splitlines()[0])
    words.add_argument("gib", nargs="?", type=float, default=2)
    words.add_argument("--parts", type=int, default=1)
    words = words.parse_args()
    total = int(words.gib * (1 << 30))
    if words.parts > 1:
        sync_parts(total, words.parts)
        return
    with tempfile.TemporaryDirectory(dir="/dev/shm") as room:
        large = arrays.make_files(room, "large", total, 30 << 20)
        mixed = arrays.make_files(room, "mixed", total, 117 << 10)
        arrays.heading(f"{arrays.DISKS} disks, {arrays.LEVELS} levels, blocks of 256 KiB, {large} large and {mixed} mixed files", "sync")
        for name, again in [("large", False), ("mixed", False), ("mixed", True)]:
            for tool, words in arrays.tools().items():
                command = [*words, "-c", arrays.configuration(room, name, tool), "sync"]
                if again:
                    memory = peak(command)
                    wall, spent = run(command)
                else:
                    wall, spent = run(command)
                    memory = "-"
                arrays.row(name + (", nothing to do" if again else ""), tool, wall, spent, memory)


main()
