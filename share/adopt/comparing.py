"""Reads stripes of the data folders, and compares their sums with the parity files."""
import bisect
import errno
import os
from concurrent.futures import ThreadPoolExecutor

BATCH = 4 << 20
MODULUS = 0x11D


def times_two(value):
    return value << 1 ^ (MODULUS if value & 0x80 else 0)


POWERS = [1]
while len(POWERS) < 255:
    POWERS.append(times_two(POWERS[-1]))
LOGS = {value: exponent for exponent, value in enumerate(POWERS)}


def product(one, other):
    return POWERS[(LOGS[one] + LOGS[other]) % 255] if one and other else 0


def factor(level, column):
    """The entry of the matrix: of the extended Cauchy matrix that both programs use."""
    if level == 0:
        return 1
    if level == 1:
        return POWERS[column]
    power = POWERS[level - 1]
    return product(1 ^ power, POWERS[-LOGS[POWERS[-column % 255] ^ power] % 255])


def table(level, column):
    return bytes(product(factor(level, column), value) for value in range(256))


class Files:
    """The recorded files of one column, by the positions of their blocks."""

    def __init__(self, directory, records, block):
        self.directory, self.block, self.runs = os.fsencode(directory), block, []
        for record in records:
            index = 0
            for position, count in zip(record.runs[::2], record.runs[1::2]):
                self.runs.append((position, count, index, record))
                index += count
        self.runs.sort(key=lambda run: run[0])
        self.starts = [run[0] for run in self.runs]

    def blocks(self, first, count):
        """The blocks of so many stripes, zeros where there is none; None if there is none at all."""
        out = None
        at = max(bisect.bisect_right(self.starts, first) - 1, 0)
        while at < len(self.runs) and self.starts[at] < first + count:
            position, length, index, record = self.runs[at]
            at += 1
            begin, end = max(position, first), min(position + length, first + count)
            if begin < end:
                out = out or bytearray(count * self.block)
                offset = (index + begin - position) * self.block
                size = min((end - begin) * self.block, record.size - offset)
                room = memoryview(out)[(begin - first) * self.block:][:size]
                read_whole(os.path.join(self.directory, record.path), room, offset)
        return out


def read_whole(name, room, offset):
    fd = os.open(name, os.O_RDONLY)
    try:
        done = 0
        while done < len(room):
            step = os.preadv(fd, [room[done:]], offset + done)
            if step == 0:
                raise OSError(errno.ENODATA, "it is shorter than it was", name)
            done += step
    finally:
        os.close(fd)


class Comparison:
    """Columns, and parity files by their levels. `wrong` are the stripes and levels that differ."""

    def __init__(self, columns, levels, occupied, block):
        self.columns, self.levels, self.occupied, self.block = columns, levels, occupied, block
        self.tables = [[table(level, column) for column in range(len(columns))] for level in range(len(levels))]
        self.wrong = []

    def compare(self, first, count, pool):
        if self.occupied.find(1, first, first + count) < 0:
            return
        blocks = list(pool.map(lambda files: files.blocks(first, count), self.columns))
        for level, name in enumerate(self.levels):
            sums = self.sums(level, blocks, count).to_bytes(count * self.block, "little")
            parity = bytearray(count * self.block)
            read_whole(name, memoryview(parity), first * self.block)
            if sums != parity:
                self.find_wrong(level, first, sums, parity)

    def sums(self, level, blocks, count):
        total = 0
        for times, block in zip(self.tables[level], blocks):
            if block is not None:
                total ^= int.from_bytes(block if level == 0 else block.translate(times), "little")
        return total

    def find_wrong(self, level, first, sums, parity):
        for at in range(0, len(sums), self.block):
            stripe = first + at // self.block
            if self.occupied[stripe] and sums[at:at + self.block] != parity[at:at + self.block]:
                self.wrong.append((stripe, level))

    def compare_all(self, tell):
        """All stripes. It is told how many are done."""
        step = max(1, BATCH // self.block)
        with ThreadPoolExecutor(len(self.columns)) as pool:
            for first in range(0, len(self.occupied), step):
                self.compare(first, min(step, len(self.occupied) - first), pool)
                tell(first)

    def compare_some(self, most):
        """So many stripes that hold a block, far from one another."""
        length, chosen = len(self.occupied), set()
        for at in range(most):
            stripe = self.occupied.find(1, at * max(length - 1, 0) // max(most - 1, 1))
            if stripe >= 0:
                chosen.add(stripe)
        with ThreadPoolExecutor(len(self.columns)) as pool:
            for stripe in sorted(chosen):
                self.compare(stripe, 1, pool)
        return len(chosen)
