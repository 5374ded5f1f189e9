#!/usr/bin/env python3
"""Lists the duplicates of an array of six disks in memory-backed storage, and prints wall time, processor time and memory.

usage: bench/dup.py [FILES]     200,000 files where nothing is given
The files are small, and blocks have 1 KiB. Each file of a second half holds what one of the first half holds, on another disk. Where the
real snapraid is found on the PATH, it syncs the same tree and lists its duplicates. The tools take turns; each row has the middle of the
times, and the most memory of all runs. The number of pairs that this program prints is compared with that of the files.
"""
import os
import statistics
import subprocess
import sys
import tempfile

sys.path.insert(0, os.path.dirname(os.path.abspath(__file__)))
import arrays  # noqa: E402

RUNS = 9
LONG = 512


def make_twins(room, pairs):
    """So many pairs of files of one content, each of another content than all other pairs."""
    for number in range(pairs):
        text = f"{number} ".encode() + os.urandom(LONG)
        for copy in range(2):
            folder = os.path.join(room, "files", f"d{(number + copy) % arrays.DISKS}", f"part{number // 1000:05}-{copy}")
            os.makedirs(folder, exist_ok=True)
            with open(os.path.join(folder, f"file{number:07}"), "wb") as file:
                file.write(text)


def main():
    pairs = (int(sys.argv[1]) if len(sys.argv) > 1 else 200_000) // 2
    with tempfile.TemporaryDirectory(dir="/dev/shm") as room:
        for disk in range(arrays.DISKS):
            os.makedirs(os.path.join(room, "files", f"d{disk}"))
        make_twins(room, pairs)
        arrays.heading(f"{arrays.DISKS} disks, blocks of 1 KiB, {2 * pairs} files, {pairs} pairs, the middle of {RUNS} runs")
        commands = {tool: [*words, "-c", arrays.configuration(room, "files", tool, 1)] for tool, words in arrays.tools().items()}
        for command in commands.values():
            subprocess.run([*command, "sync"], stdout=subprocess.DEVNULL, stderr=subprocess.DEVNULL, check=True)
        rows = {tool: [] for tool in commands}
        for _ in range(RUNS):
            for tool, command in commands.items():
                *figures, text = arrays.measured([*command, "dup"], 0)
                rows[tool].append(figures)
                if tool == "this" and not text.rstrip().endswith(f"\ndup: {pairs} pairs"):
                    sys.exit(f"not {pairs} pairs: {text.rstrip()[-200:]}")
        for tool, row in rows.items():
            walls, spent, memory = zip(*row)
            arrays.row(tool, statistics.median(walls), statistics.median(spent), round(max(memory) / 1024))


main()
