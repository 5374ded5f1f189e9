"""Small random arrays for crashes.py, and what is wanted of them: a content file is read, and parity compared with the matrix, by code
that was written from docs/ and not from the code. It knows each block that was ever in a file, and so which bytes a hash stands for.
"""
import functools
import hashlib
import os
import random
import shutil
import struct
from dataclasses import dataclass

from fix_model import BLOCK, KEYWORDS, LOST, SYNCED, row_sum

SIZES = [0, 1, 100, 1023, 1024, 1025, 2048, 3000, 5000]
FOLDERS = ["", "", "a/", "a/b/"]


@dataclass
class Content:
    """What a content file says: the records of each disk with positions and hashes, and of each stripe its flags and last check."""
    kind: int
    seed: bytes
    columns: list
    marks: list

    @property
    def synced(self):
        return [bool(flags & SYNCED) for flags, _ in self.marks]

    def is_checked(self, stripe):
        """Whether a scrub of all stripes checks this one: it is synced and holds a block."""
        held = {position for records in self.columns for record in records for position, _ in record[3]}
        return self.synced[stripe] and stripe in held


class Cursor:
    def __init__(self, data):
        self.data, self.at = data, 0

    def take(self, form):
        found = struct.unpack_from("<" + form, self.data, self.at)
        self.at += struct.calcsize("<" + form)
        return found[0] if len(found) == 1 else found

    def text(self, form):
        return self.take(f"{self.take(form)}s").decode()


def read_content(data):
    """The table of a content file; none where it is not whole."""
    if len(data) < 32 or hashlib.sha256(data[:-32]).digest() != data[-32:]:
        return None
    it = Cursor(data)
    if it.take("8s") != b"SNAPRCF\x01":
        return None
    _, _, kind, seed = it.take("IBB16s")
    length, disks = it.take("IB")
    columns = []
    for _ in range(disks):
        it.text("B")
        records = []
        for _ in range(it.take("I")):
            path = it.text("H")
            size, seconds, nanoseconds = it.take("QqI")
            blocks = []
            for _ in range(-(-size // BLOCK)):
                position, has_hash = it.take("IB")
                blocks.append((position, it.take("16s") if has_hash else None))
            records.append((path, size, seconds * 10**9 + nanoseconds, blocks))
        columns.append(records)
    return Content(kind, seed, columns, [it.take("BQ") for _ in range(length)])


class Array:
    """An array in a room, of which a copy is kept aside."""

    def __init__(self, room, aside, program, seed):
        rnd = self.rnd = random.Random(seed)
        disks, levels = rnd.randint(1, 4), rnd.randint(1, 3)
        self.begin(room, aside, program, disks, levels, ["content", "d1/.content", "more"][:rnd.randint(1, 3)])
        for disk in range(self.disks):
            for number in range(rnd.randint(0, 5)):
                self.trees[disk][rnd.choice(FOLDERS) + f"f{number}"] = (self.data(), self.stamp())
        self.lay_trees()

    def begin(self, room, aside, program, disks, levels, copies):
        """Makes its configuration and its disks, which are empty."""
        self.room, self.aside, self.program = room, aside, program
        self.disks, self.levels = disks, levels
        self.known, self.trees = set(), [{} for _ in range(disks)]
        shutil.rmtree(room, ignore_errors=True)
        os.makedirs(room)
        self.copies = [f"{room}/{name}" for name in copies]
        self.parities = [f"{room}/p{level}" for level in range(levels)]
        lines = [f"{KEYWORDS[level]} {name}" for level, name in enumerate(self.parities)]
        lines += [f"content {name}" for name in self.copies] + ["blocksize 1"]
        for disk in range(disks):
            os.mkdir(self.dir(disk))
            lines.append(f"data d{disk + 1} {self.dir(disk)}")
        with open(f"{room}/conf", "w", encoding="ascii") as out:
            out.write("\n".join(lines) + "\n")

    def dir(self, disk):
        return f"{self.room}/d{disk + 1}"

    def data(self):
        size = self.rnd.choice(SIZES)
        data = self.rnd.randbytes(size) if self.rnd.random() < 0.8 else bytes([self.rnd.randrange(3)]) * size
        self.known.update(data[at:at + BLOCK] for at in range(0, size, BLOCK))
        return data

    def stamp(self):
        return self.rnd.randint(1, 10**9) * 10**9 + self.rnd.randint(1, 10**9 - 1)

    def own(self, name):
        return name in self.copies or name.removesuffix(".tmp") in self.copies

    def lay_trees(self):
        """Makes the folders what the trees say."""
        for disk, wanted in enumerate(self.trees):
            for path, held in self.tree(disk).items():
                if wanted.get(path) != held:
                    os.remove(f"{self.dir(disk)}/{path}")
            for path, (data, stamp) in wanted.items():
                put(f"{self.dir(disk)}/{path}", data, stamp)

    def tree(self, disk):
        found = {}
        for folder, _, names in os.walk(self.dir(disk)):
            for name in names:
                path = os.path.join(folder, name)
                if not self.own(path):
                    with open(path, "rb") as held:
                        found[os.path.relpath(path, self.dir(disk))] = (held.read(), os.stat(path).st_mtime_ns)
        return found

    def all_trees(self):
        return [self.tree(disk) for disk in range(self.disks)]

    def edit(self):
        """Files are changed, made, moved and deleted."""
        rnd = self.rnd
        for tree in self.trees:
            for path in sorted(tree):
                kind = rnd.randrange(8)
                if kind == 0:
                    del tree[path]
                elif kind == 1:
                    tree[path] = (self.data(), self.stamp())
                elif kind == 2:
                    tree[rnd.choice(FOLDERS) + f"moved-{len(tree)}"] = tree.pop(path)
                elif kind == 3:
                    tree[path] = (tree[path][0], self.stamp())
            for number in range(rnd.randint(0, 3)):
                tree[rnd.choice(FOLDERS) + f"new{number}"] = (self.data(), self.stamp())
        self.lay_trees()

    def damage(self):
        """No more disks and levels are damaged than there are levels, so that a fix restores all."""
        rnd = self.rnd
        places = [("disk", disk) for disk in range(self.disks)] + [("level", level) for level in range(self.levels)]
        for kind, number in rnd.sample(places, rnd.randint(1, self.levels)):
            if kind == "level":
                self.damage_level(self.parities[number])
            elif rnd.random() < 0.3:
                for path in self.tree(number):
                    os.remove(f"{self.dir(number)}/{path}")
            else:
                for path, (data, stamp) in self.tree(number).items():
                    self.damage_file(f"{self.dir(number)}/{path}", data, stamp)

    def damage_file(self, name, data, stamp):
        rnd = self.rnd
        kind = rnd.choice(["left", "gone", "flipped", "cut", "grown", "named", "stamped"])
        if kind == "gone":
            os.remove(name)
        elif kind == "flipped" and data:
            other = bytearray(data)
            other[rnd.randrange(len(other))] ^= rnd.randint(1, 255)
            put(name, bytes(other), stamp if rnd.random() < 0.5 else self.stamp())
        elif kind == "cut" and data:
            put(name, data[:rnd.randrange(len(data))], self.stamp())
        elif kind == "grown":
            put(name, data + rnd.randbytes(rnd.randint(1, 2000)), self.stamp())
        elif kind == "named":
            os.rename(name, name + LOST)
        elif kind == "stamped":
            put(name, data, self.stamp())

    def damage_level(self, name):
        rnd, data = self.rnd, bytearray(read(name) or b"")
        kind = rnd.choice(["gone", "cut", "flipped"])
        if kind == "gone" and data:
            os.remove(name)
        elif kind == "cut" and data:
            os.truncate(name, rnd.randrange(len(data)))
        elif data:
            for _ in range(rnd.randint(1, 3)):
                data[rnd.randrange(len(data))] ^= rnd.randint(1, 255)
            put(name, bytes(data), 10**9)

    def keep(self):
        shutil.rmtree(self.aside, ignore_errors=True)
        shutil.copytree(self.room, self.aside)

    def bring_back(self):
        shutil.rmtree(self.room)
        shutil.copytree(self.aside, self.room)

    def contents(self):
        """The bytes of each copy."""
        return [read(name) for name in self.copies]

    def held(self):
        return [read(name) or b"" for name in self.parities]

    def unsound(self, content):
        """A stripe that is called synced, and whose sums are not in parity, if there is one."""
        known = blocks_by_digest(content.kind, content.seed, frozenset(self.known))
        rows = [[b""] * len(content.columns) for _ in content.synced]
        for disk, records in enumerate(content.columns):
            for path, _, _, blocks in records:
                for position, digest in blocks:
                    if content.synced[position]:
                        rows[position][disk] = known.get(digest)
                        if rows[position][disk] is None:
                            return f"stripe {position} is synced with a hash of no block of {path}"
        for level, held in enumerate(self.held()):
            for stripe, row in enumerate(rows):
                if content.synced[stripe] and held[stripe * BLOCK:(stripe + 1) * BLOCK] != row_sum(level, row):
                    return f"stripe {stripe} is called synced, and level {level} has not its sum"
        return None


class FixedArray(Array):
    """An array of these files, of a block each. Their stamps are 1 s and 5 ns."""

    def __init__(self, room, aside, program, disks, levels, copies):
        self.begin(room, aside, program, len(disks), levels, copies)
        self.trees = [{path: (block, 10**9 + 5) for path, block in files.items()} for files in disks]
        self.known.update(block for files in disks for block in files.values())
        self.lay_trees()


@functools.lru_cache(64)
def blocks_by_digest(kind, seed, known):
    digest = hashlib.md5 if kind == 1 else hashlib.sha256
    return {digest(seed + block).digest()[:16]: block for block in known}


def read(name):
    try:
        with open(name, "rb") as held:
            return held.read()
    except FileNotFoundError:
        return None


def put(name, data, stamp):
    os.makedirs(os.path.dirname(name), exist_ok=True)
    with open(name, "wb") as out:
        out.write(data)
    os.utime(name, ns=(stamp, stamp))
