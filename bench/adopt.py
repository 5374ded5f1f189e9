#!/usr/bin/env python3
"""Takes small random arrays of the real snapraid over, and then syncs, checks and restores them by this program.

usage: bench/adopt.py PROGRAM [RUNS] [SEED] [REAL]    20 runs from seed 1 of the snapraid on the PATH where nothing is given
Each run makes an array of one to six levels, with deleted, added and changed files, disks added and removed, by the real tool. It is
taken over, and synced. Some first syncs are killed on the way: then the real tool still finds all right, and restores a file. Then
each parity file has the same bytes as before in each stripe that holds a block, and zeros in the others. This program finds nothing in a
check and a full scrub, and restores as many lost disks as there are levels. The real tool then still finds nothing wrong. Before, each
run tries what has to be refused. It ends with 1 at the first difference, and keeps the array.
"""
import os
import random
import re
import shutil
import subprocess
import sys
import tempfile
import time

TOP = os.path.dirname(os.path.dirname(os.path.abspath(__file__)))
sys.path.insert(0, os.path.join(TOP, "bench"))
from adopt_arrays import empty, random_array, tree  # noqa: E402
from adopt_refusals import ADOPT, refuse_all  # noqa: E402



class Wrong(AssertionError):
    """What differs from what has to be."""


def same(what, one, other):
    if one != other:
        raise Wrong(f"{what}: {str(one)[:600]} and not {str(other)[:600]}")


def adopt(array, status, *options):
    """Both outputs of the script, which ends with this status."""
    words = [sys.executable, ADOPT, *options, f"{array.room}/old.conf", f"{array.room}/new.conf"]
    done = subprocess.run(words, capture_output=True, check=False)
    said = done.stdout.decode(errors="replace"), done.stderr.decode(errors="replace")
    same(f"status of {options}: {said}", done.returncode, status)
    return said


def bytes_of(names):
    found = []
    for name in names:
        with open(name, "rb") as file:
            found.append(file.read())
    return found


def data_lines(array):
    """The data lines that the script asks for, with folders for the gaps."""
    folders = [f"data x{place} {folder}/" for place, folder in enumerate(array.folders)]
    random.Random(len(folders)).shuffle(folders)
    array.adopting(folders)
    done = subprocess.run([sys.executable, ADOPT, "--suggest", f"{array.room}/old.conf", f"{array.room}/new.conf", "--dry-run"],
                          capture_output=True, check=False)
    lines = [line for line in done.stdout.decode().split("\n") if line.startswith("data ")] or folders
    for place, line in enumerate(lines):
        if line.endswith(" AN-EMPTY-FOLDER"):
            os.makedirs(f"{array.room}/gap{place}", exist_ok=True)
            lines[place] = line.replace("AN-EMPTY-FOLDER", f"{array.room}/gap{place}")
    return lines


class Adopted:
    """An array that was taken over, and the program that works on it now."""

    def __init__(self, array, program, before):
        self.array, self.program, self.before = array, program, before
        self.size = array.kib * 1024

    def words(self, *words):
        return [self.program, *words, "-c", f"{self.array.room}/new.conf"]

    def run(self, status, last, *words):
        done = subprocess.run(self.words(*words), capture_output=True, check=False)
        said = done.stdout.decode(errors="replace") + done.stderr.decode(errors="replace")
        same(f"status of {words}: {said}", done.returncode, status)
        if not re.search(last, said):
            raise Wrong(f"{words} says {said[-600:]} and not {last}")

    def killed_sync(self, rnd):
        """A sync that saves after each two stripes, and is killed after some of these. How many stripes it saved is returned. The real
        tool then finds nothing wrong, and restores a file."""
        saves, last = rnd.randint(1, 6), os.stat(f"{self.array.room}/new0").st_ino
        with subprocess.Popen(self.words("sync", "--save-every", "2"), stdout=subprocess.DEVNULL, stderr=subprocess.DEVNULL) as sync:
            while saves and sync.poll() is None:
                number = os.stat(f"{self.array.room}/new0").st_ino
                saves, last = saves - (number != last), number
                time.sleep(0.001)
            sync.kill()
        self.array.must("check")
        folder = rnd.choice(self.array.folders)
        files = tree(folder)
        for path in rnd.sample(sorted(files), min(1, len(files))):
            os.remove(os.path.join(folder, path))
            self.array.must("fix", "-m")
        same(f"what the real tool restored in {folder}", tree(folder), files)
        said = subprocess.run(self.words("status"), capture_output=True, check=False).stdout.decode()
        return int(re.search("^synced ([0-9]+)$", said, re.MULTILINE).group(1))

    def held(self):
        """The stripes that hold a block, by the content file of this program, which is read as docs/FORMATS.md says."""
        data, = bytes_of([f"{self.array.room}/new0"])
        used, at = set(), 35
        for _ in range(data[34]):
            at += 1 + data[at]
            records, at = int.from_bytes(data[at:at + 4], "little"), at + 4
            for _ in range(records):
                at += 2 + int.from_bytes(data[at:at + 2], "little")
                size, at = int.from_bytes(data[at:at + 8], "little"), at + 20
                for _ in range(-(-size // self.size)):
                    used.add(int.from_bytes(data[at:at + 4], "little"))
                    at += 5 + 16 * data[at + 4]
        return used

    def compare_parity(self):
        held = self.held()
        for level, (old, new) in enumerate(zip(self.before, bytes_of(self.array.parity()))):
            same(f"length of level {level}", len(new), self.size * (max(held, default=-1) + 1))
            for at in range(0, len(new), self.size):
                stripe = at // self.size
                wanted = old[at:at + self.size] if stripe in held else bytes(self.size)
                same(f"level {level} of stripe {stripe}", new[at:at + self.size], wanted)

    def lose(self, rnd):
        """As many disks as there are levels lose all files, and get them back."""
        trees = {folder: tree(folder) for folder in self.array.folders}
        for folder in rnd.sample(self.array.folders, min(len(trees), self.array.levels)):
            empty(folder)
        self.run(0, " 0 findings left", "fix")
        for folder, files in trees.items():
            same(f"files of {folder}", tree(folder), files)


def one_run(room, program, real, seed):
    rnd, array = random.Random(seed), random_array(room, seed, real)
    array.must("scrub", "-p", "full")
    array.adopting(data_lines(array))
    trees, before, contents = [tree(folder) for folder in array.folders], bytes_of(array.parity()), bytes_of(array.contents())
    said, _ = adopt(array, 0, "--dry-run", *rnd.choice([[], ["--compare"]]))
    same(f"writes of a dry run: {said}", os.path.exists(f"{room}/new0"), False)
    adopt(array, 0, *rnd.choice([[], ["--compare"]]))
    same("the two copies", *bytes_of([f"{room}/new0", f"{room}/new1"]))
    adopt(array, 1)
    now = Adopted(array, program, before)
    saved = now.killed_sync(rnd) if rnd.random() < 0.5 else None
    now.run(0, " 0 pending", "sync")
    now.compare_parity()
    now.run(0, "check: 0 findings", "check")
    now.run(0, " 0 findings", "scrub", "-p", "full")
    array.must("check")
    now.lose(rnd)
    array.must("check")
    same("files", [tree(folder) for folder in array.folders], trees)
    same("old content files", bytes_of(array.contents()), contents)
    killed = "" if saved is None else f", killed when {saved} were saved"
    return f"{array.levels} levels, {len(array.folders)} disks, {len(now.held())} stripes{killed}"


def main(words):
    if not 2 <= len(words) <= 5:
        sys.exit(__doc__)
    program = os.path.abspath(words[1])
    runs, seed = (int(word) for word in (words[2:4] + ["20", "1"][len(words[2:4]):]))
    real = words[4] if len(words) == 5 else shutil.which("snapraid")
    room = tempfile.mkdtemp(prefix="adopt-", dir="/dev/shm")
    try:
        for number in range(seed, seed + runs):
            folder = f"{room}/run{number}"
            os.mkdir(folder)
            print(f"run {number}: {one_run(folder, program, real, number)}", flush=True)
        os.mkdir(f"{room}/refused")
        refuse_all(f"{room}/refused", real)
    except AssertionError as wrong:
        sys.exit(f"{wrong}\nin {room}, which is kept")
    shutil.rmtree(room)


if __name__ == "__main__":
    main(sys.argv)
