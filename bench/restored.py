#!/usr/bin/env python3
"""Times a fix that restores many small files on a real file system, with and without the syncing behind it, beside the real snapraid.

usage: bench/restored.py [FOLDER] [--files N] [--program PROGRAM]
FOLDER is on the file system that is measured, /var/tmp where nothing is given; 20,000 files of 4 KiB; the built program of this repository.
Two disks hold so many files each, and one of them is lost. Without the syncing means that a library is preloaded in
which fsync and its kin do nothing. Before each fix all that is dirty is written out, and what is restored is compared.
"""
import argparse
import os
import shutil
import subprocess
import sys
import tempfile

sys.path.insert(0, os.path.dirname(os.path.abspath(__file__)))
import arrays  # noqa: E402
from fix import differ  # noqa: E402

SIZE = 4096
NO_SYNC = """
#include <fcntl.h>
int fsync(int fd) { (void)fd; return 0; }
int fdatasync(int fd) { (void)fd; return 0; }
int syncfs(int fd) { (void)fd; return 0; }
int sync_file_range(int fd, off64_t at, off64_t count, unsigned how) { (void)fd; (void)at; (void)count; (void)how; return 0; }
void sync(void) {}
"""


def make_tree(room, count):
    """So many files on each of two disks, a hundred in a folder, and so many folders."""
    block = os.urandom(1 << 20)
    for disk in (1, 2):
        for number in range(count):
            folder = f"{room}/d{disk}/part{number // 100:05}"
            os.makedirs(folder, exist_ok=True)
            at = (number * 4099 + disk) % (len(block) - SIZE)
            name = f"{folder}/file{number:07}"
            with open(name, "wb") as out:
                out.write(block[at:at + SIZE])
            os.utime(name, ns=(10**9, 10**18 + number + 1))


def configuration(room, tool):
    name = f"{room}/{tool}.conf"
    with open(name, "w", encoding="ascii") as out:
        out.write(f"parity {room}/{tool}.parity\ncontent {room}/{tool}.content0\ncontent {room}/{tool}.content1\n"
                  f"data d1 {room}/d1/\ndata d2 {room}/d2/\nblocksize 4\n")
    return name


def fix(room, tool, words, library):
    """The lost disk is emptied, restored and compared."""
    os.rename(f"{room}/d1", f"{room}/kept")
    os.mkdir(f"{room}/d1")
    os.sync()
    before = [] if library is None else ["env", f"LD_PRELOAD={library}"]
    figures = arrays.measured([*before, *words, "fix", "-c", f"{room}/{tool}.conf"], 0)
    wrong = differ(f"{room}/kept", f"{room}/d1")
    if wrong is not None:
        sys.exit(f"{tool}: not restored: {wrong}")
    shutil.rmtree(f"{room}/d1")
    os.rename(f"{room}/kept", f"{room}/d1")
    return figures


def main():
    words = argparse.ArgumentParser(description=__doc__.splitlines()[0])
    words.add_argument("folder", nargs="?", default="/var/tmp")
    words.add_argument("--files", type=int, default=20_000)
    words.add_argument("--program", default=arrays.PROGRAM)
    given = words.parse_args()
    found = {"this": [os.path.abspath(given.program)]}
    real = shutil.which("snapraid")
    if real is not None and os.path.realpath(real) != os.path.realpath(given.program):
        found["real"] = [real, "--test-skip-device", "--test-skip-self", "--no-warnings"]
    with tempfile.TemporaryDirectory(dir=given.folder) as room:
        library = f"{room}/no_sync.so"
        subprocess.run(["gcc", "-shared", "-fPIC", "-D_GNU_SOURCE", "-x", "c", "-", "-o", library], input=NO_SYNC, text=True, check=True)
        make_tree(room, given.files)
        system = subprocess.run(["stat", "-f", "-c", "%T", room], capture_output=True, text=True, check=True).stdout.strip()
        arrays.heading(f"{given.files} files of {SIZE} bytes are restored, on {system}", "fix")
        for tool, first in found.items():
            subprocess.run([*first, "sync", "-c", configuration(room, tool)], stdout=subprocess.DEVNULL, check=True)
            for name, preloaded in (("with syncing", None), ("without", library)):
                wall, spent, memory, _ = fix(room, tool, first, preloaded)
                arrays.row(name, tool, wall, spent, memory // 1024)


if __name__ == "__main__":
    main()
