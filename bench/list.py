#!/usr/bin/env python3
"""Lists an array of six disks in memory-backed storage, and prints wall time, processor time and memory.

usage: bench/list.py [FILES]     200,000 files where nothing is given
The files are small, and blocks have 1 KiB. Where the real snapraid is found on the PATH, it syncs and lists the same tree. The tools
take turns; each row has the middle of the times, and the most memory of all runs. What is listed goes to a file in the same storage.
"""
import os
import resource
import statistics
import subprocess
import sys
import tempfile
import time

sys.path.insert(0, os.path.dirname(os.path.abspath(__file__)))
import arrays  # noqa: E402

RUNS = 9


def measured(command, output):
    """Wall time, processor time and the most memory in MiB of one run, by a process of its own that waits for it."""
    child = os.fork()
    if child == 0:
        start = time.monotonic()
        with open(output, "w") as out:
            status = subprocess.run(command, stdout=out).returncode
        wall = time.monotonic() - start
        used = resource.getrusage(resource.RUSAGE_CHILDREN)
        with open(output + ".used", "w") as file:
            file.write(f"{wall} {used.ru_utime + used.ru_stime} {used.ru_maxrss / 1024}")
        os._exit(status)
    _, status = os.waitpid(child, 0)
    if status != 0:
        sys.exit(f"failed: {' '.join(command)}")
    with open(output + ".used") as file:
        return [float(word) for word in file.read().split()]


def main():
    files = int(sys.argv[1]) if len(sys.argv) > 1 else 200_000
    with tempfile.TemporaryDirectory(dir="/dev/shm") as room:
        count = arrays.make_files(room, "files", files * 512, 512)
        arrays.heading(f"{arrays.DISKS} disks, blocks of 1 KiB, {count} files, the middle of {RUNS} runs")
        commands = {tool: [*words, "-c", arrays.configuration(room, "files", tool, 1)] for tool, words in arrays.tools().items()}
        for command in commands.values():
            subprocess.run([*command, "sync"], stdout=subprocess.DEVNULL, stderr=subprocess.DEVNULL, check=True)
        rows = {tool: [] for tool in commands}
        for _ in range(RUNS):
            for tool, command in commands.items():
                output = os.path.join(room, f"{tool}.list")
                rows[tool].append(measured([*command, "list"], output))
                with open(output, "rb") as listed:
                    if sum(1 for _ in listed) < count:
                        sys.exit(f"{tool}: not all files are listed")
        for tool, row in rows.items():
            walls, spent, memory = zip(*row)
            arrays.row(tool, statistics.median(walls), statistics.median(spent), round(max(memory)))


main()
