#!/usr/bin/env python3
"""Checks and fixes an array of six disks and three levels in memory-backed storage, and prints wall time, processor time and memory.

usage: bench/fix.py [GIB]     2 GiB of data where nothing is given
After a sync, a check of the whole array is timed, then a check with two emptied disks, and the fix that brings their files back. All
files are compared with those that were there. Where the real snapraid is found on the PATH, it does the same over the same trees.
"""
import filecmp
import os
import shutil
import subprocess
import sys
import tempfile

sys.path.insert(0, os.path.dirname(os.path.abspath(__file__)))
import arrays  # noqa: E402

LOST = (1, 4)


def differ(one, other):
    """The first file of a tree that another tree does not hold with the same bytes, size and time."""
    for folder, _, names in os.walk(one):
        for name in names:
            path = os.path.join(folder, name)
            there = os.path.join(other, os.path.relpath(path, one))
            if not os.path.exists(there) or not filecmp.cmp(path, there, shallow=False):
                return path
            if os.stat(path).st_mtime_ns != os.stat(there).st_mtime_ns:
                return path
    return None


def main():
    total = int(float(sys.argv[1]) * (1 << 30)) if len(sys.argv) > 1 else 2 << 30
    with tempfile.TemporaryDirectory(dir="/dev/shm") as room:
        count = arrays.make_files(room, "files", total, 4 << 20)
        tree = os.path.join(room, "files")
        arrays.heading(f"{arrays.DISKS} disks, {arrays.LEVELS} levels, blocks of 256 KiB, {count} files; disks {LOST} are emptied", "run")
        for tool, words in arrays.tools().items():
            command = [*words, "-c", arrays.configuration(room, "files", tool)]
            subprocess.run([*command, "sync"], stdout=subprocess.DEVNULL, check=True)
            rows = [("check, whole", arrays.measured([*command, "check"]))]
            kept = os.path.join(room, "kept")
            os.makedirs(kept)
            for disk in LOST:
                shutil.move(os.path.join(tree, f"d{disk}"), kept)
                os.makedirs(os.path.join(tree, f"d{disk}"))
            rows.append(("check, two lost", arrays.measured([*command, "check"])))
            rows.append(("fix, two lost", arrays.measured([*command, "fix"])))
            for name, (wall, spent, memory, _) in rows:
                arrays.row(name, tool, wall, spent, memory // 1024)
            for disk in LOST:
                wrong = differ(os.path.join(kept, f"d{disk}"), os.path.join(tree, f"d{disk}"))
                if wrong is not None:
                    sys.exit(f"{tool}: not restored: {wrong}")
            shutil.rmtree(kept)


if __name__ == "__main__":
    main()
