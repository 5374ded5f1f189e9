#!/usr/bin/env python3
"""Takes arrays of many blocks through a sync, a sync with nothing to do, status and check, and prints times and bytes of memory a block.

usage: bench/scale.py [BLOCKS ..]     500,000, 2,000,000 and 8,000,000 blocks where nothing is given
Blocks have 1 KiB, so that the data of a large table fits into memory-backed storage: six disks, one level, two copies of the content,
files of 1,024 blocks. The files are holes of zeros, which take no room. Where the real snapraid is found on the PATH, it does the same
over the same trees. Memory a block is what a run takes more than the same run over six files.
"""
import os
import sys
import tempfile

sys.path.insert(0, os.path.dirname(os.path.abspath(__file__)))
import arrays  # noqa: E402

FILE = 1024
SMALL = arrays.DISKS * FILE
RUNS = {"sync": "sync", "idle sync": "sync", "status": "status", "check": "check"}


def make_holes(room, blocks):
    """Files of 1,024 blocks on each disk in turn, in folders of a hundred, each with a time of its own."""
    for number in range(blocks // FILE):
        folder = os.path.join(room, "files", f"d{number % arrays.DISKS}", f"part{number // (100 * arrays.DISKS):05}")
        os.makedirs(folder, exist_ok=True)
        path = os.path.join(folder, f"file{number:07}")
        with open(path, "wb") as file:
            file.truncate(FILE << 10)
        os.utime(path, ns=(0, (1_600_000_000 + number) * 1_000_000_000 + number))


def runs_over(words, tool, blocks):
    """What a tool's runs over an array of so many blocks take."""
    with tempfile.TemporaryDirectory(dir="/dev/shm") as room:
        make_holes(room, blocks)
        command = [*words, "-c", arrays.configuration(room, "files", tool, 1, 1)]
        return {run: arrays.measured([*command, word])[:3] for run, word in RUNS.items()}


def main():
    counts = [int(word.replace(",", "")) for word in sys.argv[1:]] or [500_000, 2_000_000, 8_000_000]
    small = {tool: runs_over(words, tool, SMALL) for tool, words in arrays.tools().items()}
    arrays.heading(f"{arrays.DISKS} disks, one level, blocks of 1 KiB; behind the memory, bytes of it a block", "blocks", "run")
    for blocks in counts:
        for tool, words in arrays.tools().items():
            for run, (wall, spent, memory) in runs_over(words, tool, blocks).items():
                each = (memory - small[tool][run][2]) * 1024 / (blocks - SMALL)
                arrays.row(f"{blocks:,}", run, tool, wall, spent, f"{memory >> 10} ({each:.0f})")


main()
