"""A plain model of checks and fixes, which was written from docs/ and not from the code: the table and its content file, parity, what is
found and told, and what a fix leaves. A tree is a map from a path to its bytes and its stamp. It serves random_fixes.py;
its matrix serves crashes.py and scrub_model.py, too.
"""
import functools
import hashlib
import itertools
import random
import struct

BLOCK = 1024
LOST = ".unrecoverable"
SYNCED, BAD, FRESH = 1, 2, 4
KEYWORDS = ["parity", "2-parity", "3-parity", "4-parity", "5-parity", "6-parity"]


# The field of 256 elements over the polynomial 0x11d, and the matrix.

def double(a):
    return (a << 1) ^ (0x11d if a & 0x80 else 0)


def mul(a, b):
    product = 0
    while b:
        if b & 1:
            product ^= a
        a, b = double(a), b >> 1
    return product


INVERSE = [0] + [next(b for b in range(1, 256) if mul(a, b) == 1) for a in range(1, 256)]
TIMES = [bytes(mul(k, x) for x in range(256)) for k in range(256)]


def pow2(n):
    value = 1
    for _ in range(n):
        value = double(value)
    return value


@functools.lru_cache(None)
def entry(row, column):
    """The extended Cauchy matrix: ones, then powers of two, then 1 / (x + y) with each row divided by its first entry."""
    if row == 0:
        return 1
    if row == 1:
        return pow2(column)
    y = pow2(row - 1)
    return mul(1 ^ y, INVERSE[INVERSE[pow2(column)] ^ y])


def xor(a, b):
    return (int.from_bytes(a, "little") ^ int.from_bytes(b, "little")).to_bytes(len(a), "little")


def add(total, factor, block):
    return xor(total, block.translate(TIMES[factor]))


def padded(block):
    return block + bytes(BLOCK - len(block))


def row_sum(level, blocks):
    total = bytes(BLOCK)
    for column, block in enumerate(blocks):
        total = add(total, entry(level, column), padded(block))
    return total


def solve(levels, columns, sums):
    """The blocks of these columns, of which each level has that sum, by elimination."""
    rows = [([entry(level, column) for column in columns], total) for level, total in zip(levels, sums)]
    for at in range(len(columns)):
        pivot = next(i for i in range(at, len(rows)) if rows[i][0][at])
        rows[at], rows[pivot] = rows[pivot], rows[at]
        inverse = INVERSE[rows[at][0][at]]
        rows[at] = ([mul(inverse, x) for x in rows[at][0]], rows[at][1].translate(TIMES[inverse]))
        for i, (factors, total) in enumerate(rows):
            if i != at and factors[at]:
                k = factors[at]
                rows[i] = ([x ^ mul(k, p) for x, p in zip(factors, rows[at][0])], add(total, k, rows[at][1]))
    return [total for _, total in rows]


# A table, and its content file.

class Record:
    """A file as it was synced: its blocks, their positions and their hashes. A block of a stripe that isn't synced may have any hash."""

    def __init__(self, path, data, stamp):
        self.path, self.size, self.stamp = path, len(data), stamp
        self.blocks = [data[at:at + BLOCK] for at in range(0, len(data), BLOCK)]
        self.positions, self.hashes = [], []


class Table:
    def __init__(self, columns, synced, kind, seed, levels):
        self.columns, self.synced, self.kind, self.seed, self.levels = columns, synced, kind, seed, levels
        self.marks = [(SYNCED, 100) if is_synced else (0, 0) for is_synced in synced]

    def is_bad(self, stripe):
        return bool(self.marks[stripe][0] & BAD)

    def hash(self, block):
        digest = hashlib.md5 if self.kind == 1 else hashlib.sha256
        return digest(self.seed + block).digest()[:16]

    def content(self):
        out = b"SNAPRCF\x01" + struct.pack("<IBB", BLOCK // 1024, self.levels, self.kind) + self.seed
        out += struct.pack("<IB", len(self.synced), len(self.columns))
        for d, records in enumerate(self.columns):
            name = f"d{d + 1}".encode()
            out += struct.pack("<B", len(name)) + name + struct.pack("<I", len(records))
            for record in records:
                path = record.path.encode()
                out += struct.pack("<H", len(path)) + path
                out += struct.pack("<QqI", record.size, record.stamp // 10**9, record.stamp % 10**9)
                for position, digest in zip(record.positions, record.hashes):
                    out += struct.pack("<IB", position, digest is not None) + (digest or b"")
        for flags, last in self.marks:
            out += struct.pack("<BQ", flags, last)
        return out + hashlib.sha256(out).digest()

    def cell(self, d, stripe):
        for record in self.columns[d]:
            if stripe in record.positions:
                return record, record.positions.index(stripe)
        return None

    def parity(self, level):
        """The sums of the synced stripes; of the others anything."""
        out = bytearray()
        for stripe, is_synced in enumerate(self.synced):
            cells = [self.cell(d, stripe) for d in range(len(self.columns))]
            blocks = [cell[0].blocks[cell[1]] if cell else b"" for cell in cells]
            out += row_sum(level, blocks) if is_synced else random.Random(stripe).randbytes(BLOCK)
        return out


def is_directory_of(path, other):
    return other.startswith(path + "/")


def meta(size, stamp):
    return f"{size} {stamp // 10**9}.{stamp % 10**9:09d}"


def shown(path):
    return "".join(f"\\x{ord(c):02x}" if c == "\\" or ord(c) < 32 or ord(c) == 127 else c for c in path)


class Model:
    """What a check finds and a fix does. A tree is a map from a path to its bytes and its stamp; None for a stamp is any."""

    def __init__(self, table, trees, levels, words):
        self.table, self.trees, self.levels = table, trees, levels
        disks = [w[1] for w in words if w[0] == "-d"]
        patterns = [w[1] for w in words if w[0] == "-f"]
        missing = any(w[0] == "-m" for w in words)
        self.audits = any(w[0] == "-a" for w in words)
        self.errors = any(w[0] == "-e" for w in words)
        self.disks, self.patterns, self.missing = disks, patterns, missing
        self.before = [dict(tree) for tree in trees]
        self.findings = []
        self.left = self.blocks = self.parities = 0

    def place(self, d, record):
        tree = self.before[d]
        if record.path in tree:
            return record.path
        return record.path + LOST if record.path + LOST in tree else None

    def is_blocked(self, d, record):
        tree, path = self.before[d], record.path
        if path not in tree and any(is_directory_of(f, path) or is_directory_of(path, f) for f in tree):
            return True
        return any(is_directory_of(path + LOST, f) for f in tree)

    def is_selected(self, d, record):
        name = f"d{d + 1}"
        if self.disks and name not in self.disks:
            return False
        if self.patterns and not any(record.path.split("/")[-1] == p for p in self.patterns):
            return False
        if self.errors and not self.stands_as_recorded(d, record):
            return False
        return not (self.missing and record.path in self.before[d])

    def is_cell_selected(self, stripe, d, record):
        return self.is_selected(d, record) and (not self.errors or self.table.is_bad(stripe))

    def is_level_selected(self, stripe, level):
        if self.errors and not self.table.is_bad(stripe):
            return False
        if not self.disks and not self.patterns and not self.missing:
            return True
        return KEYWORDS[level] in self.disks

    def name(self, d, record):
        return f"d{d + 1}:{shown(record.path)}"

    def run(self, fixes):
        self.fixes = fixes
        self.state = {}
        columns = self.table.columns
        for d, records in enumerate(columns):
            for record in records:
                self.state[id(record)] = {"at": self.place(d, record), "lost": False, "touched": False}
                if self.is_selected(d, record):
                    self.open(d, record)
        for stripe in range(len(self.table.synced)):
            self.stripe(stripe)
        for d, records in enumerate(columns if fixes else []):
            for record in records:
                if self.is_selected(d, record) and not self.is_blocked(d, record):
                    self.finish(d, record)

    def open(self, d, record):
        if not self.stands_as_recorded(d, record):
            found = self.before[d].get(record.path)
            there = "nothing" if found is None else meta(len(found[0]), found[1])
            self.findings.append(f"changed {self.name(d, record)} recorded {meta(record.size, record.stamp)} found {there}")
        if self.is_blocked(d, record) and not self.audits:
            self.findings.append(f"blocked {self.name(d, record)}")
            self.left += 1

    def stands_as_recorded(self, d, record):
        found = self.before[d].get(record.path)
        return found is not None and (len(found[0]), found[1]) == (record.size, record.stamp)

    def present(self, d, record, index):
        """What the place of a record holds of a block, if that is all of it."""
        place, size = self.place(d, record), len(record.blocks[index])
        held = self.before[d][place][0][index * BLOCK:index * BLOCK + size] if place else b""
        return held if len(held) == size else None

    def stripe(self, stripe):
        table, levels = self.table, range(len(self.levels))
        row = [table.cell(d, stripe) for d in range(len(table.columns))]
        selected = [d for d, cell in enumerate(row) if cell and self.is_cell_selected(stripe, d, cell[0])]
        if not selected and (self.audits or not any(self.is_level_selected(stripe, level) for level in levels)):
            return
        blocks = [self.present(d, *cell) if cell else b"" for d, cell in enumerate(row)]
        hashes = [cell[0].hashes[cell[1]] if cell else None for cell in row]
        differs = [block is not None and digest is not None and table.hash(block) != digest for block, digest in zip(blocks, hashes)]
        damaged = [d for d in range(len(row)) if blocks[d] is None or differs[d]]
        if not table.synced[stripe] and selected and not self.audits:
            self.findings.append(f"unsynced {stripe}")
            self.left += 1
        for d in selected:
            if differs[d] and self.stands_as_recorded(d, row[d][0]):
                self.findings.append(f"silent {stripe} {self.name(d, row[d][0])} {row[d][1]} recorded "
                                     f"{hashes[d].hex()} found {table.hash(blocks[d]).hex()}")
        if not self.audits:
            self.repair(stripe, row, [d for d in selected if d in damaged], damaged, blocks)

    def repair(self, stripe, row, asked, damaged, blocks):
        """The row is known or not; what is lost or wrong is told, and what is known written."""
        held = [level[stripe * BLOCK:(stripe + 1) * BLOCK] for level in self.levels]
        known = self.table.synced[stripe] and (not damaged or self.recover(row, damaged, blocks, held))
        sums = [row_sum(level, blocks) for level in range(len(held))] if known else held
        wrong = [level for level in range(len(held)) if held[level] != sums[level] and self.is_level_selected(stripe, level)]
        for level in wrong:
            self.findings.append(f"wrong-parity {stripe} {KEYWORDS[level]}")
        for d in [] if known else asked:
            self.findings.append(f"unrecoverable {stripe} {self.name(d, row[d][0])} {row[d][1]}")
            self.left += 1
            self.state[id(row[d][0])]["lost"] = True
        if not self.fixes:
            return
        for d in asked if known else []:
            record, index = row[d]
            if not self.is_blocked(d, record):
                self.write(d, record, index * BLOCK, blocks[d])
                self.findings.append(f"fixed {stripe} {self.name(d, record)} {index}")
                self.blocks += 1
        for level in wrong:
            data = self.levels[level]
            data.extend(bytes(max(0, stripe * BLOCK - len(data))))
            data[stripe * BLOCK:(stripe + 1) * BLOCK] = sums[level]
            self.findings.append(f"fixed-parity {stripe} {KEYWORDS[level]}")
            self.parities += 1

    def recover(self, row, damaged, blocks, held):
        """The first choice of levels whose blocks have their hashes goes into `blocks`."""
        sound = [b"" if d in damaged else block for d, block in enumerate(blocks)]
        whole = [level for level in range(len(held)) if len(held[level]) == BLOCK]
        for levels in itertools.combinations(whole, len(damaged)):
            sums = [xor(bytes(held[level]), row_sum(level, sound)) for level in levels]
            found = solve(levels, damaged, sums)
            sizes = [len(row[d][0].blocks[row[d][1]]) for d in damaged]
            fits = [self.table.hash(block[:size]) == row[d][0].hashes[row[d][1]] and not any(block[size:])
                    for d, block, size in zip(damaged, found, sizes)]
            if all(fits):
                for d, block, size in zip(damaged, found, sizes):
                    blocks[d] = block[:size]
                return True
        return False

    def set_up(self, d, record):
        state, tree = self.state[id(record)], self.trees[d]
        if state["at"] is None:
            tree[record.path] = (b"", None)
        elif state["at"] != record.path:
            tree[record.path] = tree.pop(state["at"])
        else:
            return
        state["at"], state["touched"] = record.path, True

    def write(self, d, record, at, block):
        self.set_up(d, record)
        data, _ = self.trees[d][record.path]
        data = data.ljust(at, b"\0")
        self.trees[d][record.path] = (data[:at] + block + data[at + len(block):], None)
        self.state[id(record)]["touched"] = True

    def finish(self, d, record):
        state, tree = self.state[id(record)], self.trees[d]
        if state["lost"]:
            if state["at"] == record.path:
                tree[record.path + LOST] = tree.pop(record.path)
                self.findings.append(f"renamed {self.name(d, record)}")
            return
        self.set_up(d, record)
        data, stamp = tree[record.path]
        if state["touched"] or (len(data), stamp) != (record.size, record.stamp):
            tree[record.path] = (data[:record.size].ljust(record.size, b"\0"), record.stamp)
            self.findings.append(f"restored {self.name(d, record)}")

    def text(self):
        lines = list(self.findings)
        if self.fixes:
            lines.append(f"fix: {self.blocks} blocks and {self.parities} parities fixed, {self.left} findings left")
        else:
            lines.append(f"check: {len(self.findings)} findings")
        return "\n".join(lines) + "\n"

    def status(self):
        return int(self.left > 0 if self.fixes else bool(self.findings))
