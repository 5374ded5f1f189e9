#!/usr/bin/env python3
"""Compares checks and fixes of small random arrays with the model in fix_model.py.

usage: bench/random_fixes.py [RUNS] [SEED] [PROGRAM]     200 runs of the built program of this repository where nothing is given
Each run makes an array of one to five disks and one to six levels, with a content file and parity of its own making: blocks at any
positions in several windows, stripes that are synced and others that are not. It damages files and levels in many ways, asks the model
what checks and fixes print and what they leave, for any number of readers, and compares all of it.
"""
import itertools
import os
import random
import re
import shutil
import subprocess
import sys
import tempfile

TOP = os.path.dirname(os.path.dirname(os.path.abspath(__file__)))
sys.path.insert(0, os.path.join(TOP, "bench"))
from fix_model import BAD, FRESH, KEYWORDS, LOST, SYNCED, Model, Record, Table, is_directory_of  # noqa: E402

NAMES = ["a", "b", "b/c", "d/e", "d/f/g", "h.txt", "i\\j", "k l"]
SIZES = [0, 1, 10, 1023, 1024, 1025, 2048, 3000, 9000, 20_000]
LACKING = ("' was not there: mount its disk, make it empty if it is new, "
           "or give it its full length if it is lost (see the manual)\n")


class Array:
    def __init__(self, room, program, random_number):
        self.room, self.program, self.rnd = room, program, random_number
        self.disks = self.rnd.randint(1, 5)
        self.count = self.rnd.randint(1, 6)
        with open(os.path.join(room, "conf"), "w", encoding="ascii") as out:
            out.write("".join(f"{KEYWORDS[i]} {room}/p{i}\n" for i in range(self.count)))
            out.write(f"content {room}/content\nblocksize 1\n")
            out.write("".join(f"data d{d + 1} {room}/d{d + 1}\n" for d in range(self.disks)))
        for d in range(self.disks):
            os.mkdir(self.dir(d))

    def dir(self, d):
        return f"{self.room}/d{d + 1}"

    def put(self, d, path, data, stamp):
        name = f"{self.dir(d)}/{path}"
        os.makedirs(os.path.dirname(name), exist_ok=True)
        with open(name, "wb") as out:
            out.write(data)
        os.utime(name, ns=(stamp, stamp))

    def tree(self, d):
        found = {}
        for folder, _, names in os.walk(self.dir(d)):
            for name in names:
                path = os.path.join(folder, name)
                with open(path, "rb") as held:
                    found[os.path.relpath(path, self.dir(d))] = (held.read(), os.stat(path).st_mtime_ns)
        return found

    def replace(self, d, tree):
        shutil.rmtree(self.dir(d))
        os.mkdir(self.dir(d))
        for path, (data, stamp) in tree.items():
            self.put(d, path, data, stamp)

    def level(self, i):
        try:
            with open(f"{self.room}/p{i}", "rb") as held:
                return bytearray(held.read())
        except FileNotFoundError:
            return bytearray()

    def run(self, command, *words):
        done = subprocess.run([self.program, command, "-c", f"{self.room}/conf", *words], capture_output=True, check=False)
        return done.returncode, done.stdout.decode(), done.stderr.decode()

    def tells_missing(self, err, out):
        """Whether standard error names levels that are gone alone, each once, and all of those that were found wrong."""
        gone = {}
        for i in range(self.count):
            if not os.path.exists(f"{self.room}/p{i}"):
                gone[f"snapraid: parity file '{self.room}/p{i}{LACKING}"] = KEYWORDS[i]
        wrong = {line for line, level in gone.items() if re.search(f"^wrong-parity [0-9]+ {level}$", out, re.MULTILINE)}
        lines = err.splitlines(True)
        return len(lines) == len(set(lines)) and wrong <= set(lines) <= set(gone)

    def stamp(self):
        return self.rnd.randint(1, 3) * 10**9 + self.rnd.randint(1, 10**9 - 1)

    def data(self, size):
        return self.rnd.randbytes(size) if self.rnd.random() < 0.7 else bytes([self.rnd.randrange(3)]) * size

    def fill(self):
        for d in range(self.disks):
            tree = {}
            for path in self.rnd.sample(NAMES, self.rnd.randint(0, 5)):
                if not any(is_directory_of(p, path) or is_directory_of(path, p) for p in tree):
                    tree[path] = (self.data(self.rnd.choice(SIZES)), self.stamp())
            self.replace(d, tree)

    def table(self):
        """A table of the files as they are: their blocks lie anywhere, and some stripes aren't synced."""
        rnd, columns = self.rnd, []
        for d in range(self.disks):
            tree = self.tree(d)
            columns.append([Record(path, *tree[path]) for path in sorted(tree, key=str.encode)])
        counts = [sum(len(record.blocks) for record in records) for records in columns]
        length = max(counts, default=0) + rnd.choice([0, 0, 1, 4])
        for records, count in zip(columns, counts):
            positions = rnd.sample(range(length), count)
            if rnd.random() < 0.5:
                positions.sort()
            for record in records:
                record.positions = [positions.pop(0) for _ in record.blocks]
        length = max([p + 1 for records in columns for r in records for p in r.positions], default=0)
        pending = rnd.choice([0, 0, 0.3])
        table = Table(columns, [rnd.random() >= pending for _ in range(length)], rnd.randint(1, 2), rnd.randbytes(16), self.count)
        table.marks = [(SYNCED + rnd.choice([0, BAD, FRESH, BAD + FRESH]), 100) if synced else (0, 0) for synced in table.synced]
        for record in itertools.chain(*columns):
            for position, block in zip(record.positions, record.blocks):
                digest = table.hash(block)
                record.hashes.append(digest if table.synced[position] else rnd.choice([None, digest, rnd.randbytes(16)]))
        return table

    def settle(self, table):
        """Writes content and levels, as a sync leaves them."""
        with open(f"{self.room}/content", "wb") as out:
            out.write(table.content())
        for i in range(self.count):
            with open(f"{self.room}/p{i}", "wb") as out:
                out.write(table.parity(i))

    def damaged(self, path, data, stamp):
        """What may become of a file: the files that are there instead of it."""
        rnd = self.rnd
        other = bytearray(data)
        if other:
            other[rnd.randrange(len(other))] ^= rnd.randint(1, 255)
        other = bytes(other)
        cut = data[:rnd.randint(0, len(data))]
        longer = data + self.data(rnd.randint(1, 1500))
        kind = rnd.randrange(16)
        return [
            {}, {}, {path: (other, stamp)}, {path: (other, self.stamp())}, {path: (cut, stamp)}, {path: (longer, stamp)},
            {path: (data, self.stamp())}, {path + LOST: (data, stamp)}, {path + LOST: (other, self.stamp())},
            {path + LOST: (cut, self.stamp())}, {path + LOST: (longer, self.stamp())},
            {path: (other, stamp), path + LOST: (cut, self.stamp())}, {path: (data, stamp), path + LOST: (cut, self.stamp())},
            {path + "/x": (b"in the way", self.stamp())}, {path: (data, stamp), path + LOST + "/x": (b"in the way", self.stamp())},
            {path.split("/")[0]: (b"in the way", self.stamp())},
        ][kind]

    def damage(self):
        part = self.rnd.choice([0.1, 0.3, 0.6])
        for d in range(self.disks):
            tree = {}
            for path, (data, stamp) in self.tree(d).items():
                hurt = self.rnd.random() < part
                for name, found in (self.damaged(path, data, stamp) if hurt else {path: (data, stamp)}).items():
                    if not any(is_directory_of(name, p) or is_directory_of(p, name) for p in tree):
                        tree[name] = found
            if self.rnd.random() < 0.1:
                tree = {}
            self.replace(d, tree)
        for i in range(self.count):
            if self.rnd.random() < 0.35:
                self.damage_level(i)

    def damage_level(self, i):
        data = self.level(i)
        kind = self.rnd.randrange(4)
        if kind == 0:
            if os.path.exists(f"{self.room}/p{i}"):
                os.remove(f"{self.room}/p{i}")
            return
        if kind == 1:
            data = data[:self.rnd.randint(0, len(data))]
        elif kind == 2:
            data += self.data(self.rnd.randint(1, 2000))
        elif data:
            for _ in range(self.rnd.randint(1, 3)):
                data[self.rnd.randrange(len(data))] ^= self.rnd.randint(1, 255)
        with open(f"{self.room}/p{i}", "wb") as out:
            out.write(data)

    def words(self):
        rnd = self.rnd
        if rnd.random() < 0.6:
            return []
        words = []
        for d in rnd.sample(range(self.disks), rnd.randint(0, min(2, self.disks))):
            words.append(("-d", f"d{d + 1}"))
        if rnd.random() < 0.3:
            words.append(("-d", KEYWORDS[rnd.randrange(self.count)]))
        if rnd.random() < 0.4:
            words.append(("-m",))
        if rnd.random() < 0.3:
            words.append(("-e",))
        for name in rnd.sample(["a", "c", "e", "g", "h.txt", "k l"], rnd.choice([0, 0, 1, 3])):
            words.append(("-f", name))
        return words


def same_tree(wanted, found):
    if wanted.keys() != found.keys():
        return False
    return all(data == found[p][0] and stamp in (None, found[p][1]) for p, (data, stamp) in wanted.items())


def compare(array, table, words, command):
    """What differs from the model, if anything does."""
    with open(f"{array.room}/content", "rb") as held:
        content = held.read()
    trees = [array.tree(d) for d in range(array.disks)]
    levels = [array.level(i) for i in range(array.count)]
    model = Model(table, trees, levels, words)
    model.run(command == "fix")
    status, out, err = array.run(command, *itertools.chain(*words))
    if (status, out) != (model.status(), model.text()) or not array.tells_missing(err, out):
        return f"{command} {words}: {status}, {err!r}\n{out}--- wanted {model.status()}\n{model.text()}"
    for d in range(array.disks):
        if not same_tree(model.trees[d], array.tree(d)):
            return f"{command} {words}: another tree of d{d + 1}"
    for i in range(array.count):
        if array.level(i) != model.levels[i]:
            return f"{command} {words}: another level {i}"
    with open(f"{array.room}/content", "rb") as held:
        if held.read() != content:
            return f"{command}: another content"
    return None


def play(program, seed):
    room = tempfile.mkdtemp(dir="/dev/shm" if os.path.isdir("/dev/shm") else None)
    try:
        rnd = random.Random(seed)
        array = Array(room, program, rnd)
        array.fill()
        table = array.table()
        array.settle(table)
        for _ in range(2):
            array.damage()
            words = array.words()
            for command, more in (("check", []), ("check", [("-a",)]), ("fix", []), ("fix", []), ("check", [])):
                readers = ("--readers", str(rnd.randint(1, 16)))
                wrong = compare(array, table, [*words, *more, readers], command)
                if wrong is not None:
                    return wrong
        return None
    finally:
        shutil.rmtree(room)


def play_all(play, what):
    """Plays as many arrays as the first word says, from the seed that the second says, with the program that the third names."""
    runs = int(sys.argv[1]) if len(sys.argv) > 1 else 200
    first = int(sys.argv[2]) if len(sys.argv) > 2 else 0
    program = os.path.abspath(sys.argv[3]) if len(sys.argv) > 3 else os.path.join(TOP, "crates", "snapraid", "out", "snapraid")
    for seed in range(first, first + runs):
        wrong = play(program, seed)
        if wrong is not None:
            sys.exit(f"seed {seed}: {wrong}")
    print(f"{runs} arrays, {what}")


def main():
    play_all(play, "each damaged twice: checks and fixes as the model says")


if __name__ == "__main__":
    main()
