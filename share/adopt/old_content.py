"""Reads a content file of SnapRAID 11 or 12: header, records, and a CRC at the end.

A number is seven bits a byte, the lowest first, and its last byte has the highest bit. A text is its length and its bytes.
Each record begins with a letter.
"""
from configuration import Refused
from crc import crc

HEADERS = (b"SNAPCNT2\n\x03\0\0", b"SNAPCNT3\n\x03\0\0")


def number(data, at):
    value = shift = 0
    while True:
        byte = data[at]
        at += 1
        if byte & 0x80:
            return value | (byte & 0x7F) << shift, at
        value |= byte << shift
        shift += 7


def text(data, at):
    length, at = number(data, at)
    return bytes(data[at:at + length]), at + length


class Record:
    """A file: its stamp, and its blocks as runs of a first position and a count. None stands for unknown nanoseconds."""
    __slots__ = ("path", "size", "seconds", "nanos", "runs")

    def __init__(self, path, size, seconds, nanos, runs):
        self.path, self.size, self.seconds, self.nanos, self.runs = path, size, seconds, nanos, runs


class Column:
    """A disk of the old array, and its place in the matrix."""

    def __init__(self, name, position, length):
        self.name, self.position = name, position
        self.records, self.hard_links, self.links, self.folders = [], [], 0, 0
        self.used = bytearray(length)


class Content:
    """What a content file says. `unsynced` counts blocks, and `bad` stripes."""

    def __init__(self):
        self.block, self.length, self.hash_size = 0, 0, 16
        self.columns, self.levels, self.parts_used = [], 0, []
        self.unsynced, self.deleted, self.bad, self.oldest = 0, 0, 0, None
        self.occupied = None

    def read(self, data):
        readers = {ord(letter): reader for letter, reader in {
            "z": self.read_block_size, "x": self.read_length, "y": self.read_hash_size, "c": self.read_kind,
            "C": self.read_kind, "M": self.read_disk, "P": self.read_level, "Q": self.read_parts, "f": self.read_file,
            "a": self.read_hard_link, "s": self.read_link, "r": self.read_folder, "h": self.read_holes,
            "i": self.read_states}.items()}
        at, end = len(HEADERS[0]), len(data) - 5
        while at < end:
            at = readers[data[at]](data, at + 1)
        if at != end or self.occupied is None:
            raise ValueError

    def read_block_size(self, data, at):
        self.block, at = number(data, at)
        return at

    def read_length(self, data, at):
        self.length, at = number(data, at)
        return at

    def read_hash_size(self, data, at):
        self.hash_size, at = number(data, at)
        return at

    def read_kind(self, _data, at):
        return at + 1 + 16

    def read_disk(self, data, at):
        name, at = text(data, at)
        position, at = number(data, at)
        for _ in range(2):  # all blocks, free blocks
            _, at = number(data, at)
        _, at = text(data, at)  # UUID
        self.columns.append(Column(name.decode(), position, self.length))
        return at

    def read_level(self, data, at):
        level, at = number(data, at)
        for _ in range(2):
            _, at = number(data, at)
        _, at = text(data, at)
        self.levels = max(self.levels, level + 1)
        return at

    def read_parts(self, data, at):
        level, at = number(data, at)
        for _ in range(2):
            _, at = number(data, at)
        parts, at = number(data, at)
        for part in range(parts):
            _, at = text(data, at)
            _, at = text(data, at)
            size, at = number(data, at)
            if part > 0 and size > 0:
                self.parts_used.append(level)
        self.levels = max(self.levels, level + 1)
        return at

    def read_file(self, data, at):
        mapping, at = number(data, at)
        size, at = number(data, at)
        seconds, at = number(data, at)
        nanos, at = number(data, at)
        _, at = number(data, at)  # inode
        length, at = number(data, at)
        path = bytes(data[at:at + length])
        at += length
        column, runs, left = self.columns[mapping], [], -(-size // self.block)
        while left > 0:
            state = data[at]
            position, at = number(data, at + 1)
            count, at = number(data, at)
            if not 1 <= count <= left or position + count > self.length or column.used.find(1, position, position + count) >= 0:
                raise ValueError
            column.used[position:position + count] = b"\1" * count
            if state != ord("b"):
                self.unsynced += count
            if state != ord("n"):
                at += count * self.hash_size
            runs += position, count
            left -= count
        seconds -= (seconds >> 63) << 64
        column.records.append(Record(path, size, seconds, nanos - 1 if nanos else None, runs))
        return at

    def read_hard_link(self, data, at):
        mapping, at = number(data, at)
        name, at = text(data, at)
        _, at = text(data, at)
        self.columns[mapping].hard_links.append(name)
        return at

    def read_link(self, data, at):
        mapping, at = number(data, at)
        _, at = text(data, at)
        _, at = text(data, at)
        self.columns[mapping].links += 1
        return at

    def read_folder(self, data, at):
        mapping, at = number(data, at)
        _, at = text(data, at)
        self.columns[mapping].folders += 1
        return at

    def read_holes(self, data, at):
        _, at = number(data, at)
        position = 0
        while position < self.length:
            count, at = number(data, at)
            if count == 0:
                raise ValueError
            if data[at] == ord("o"):
                self.deleted += count
                at += count * self.hash_size
            at += 1
            position += count
        return at

    def read_states(self, data, at):
        """When the stripes were last synced or scrubbed. Those without a block don't count."""
        self.occupied = together([column.used for column in self.columns], self.length)
        start, at = number(data, at)
        position = 0
        while position < self.length:
            count, at = number(data, at)
            flags, at = number(data, at)
            if count == 0:
                raise ValueError
            held = self.occupied.count(1, position, position + count)
            if flags & 1:
                since, at = number(data, at)
                if held:
                    self.oldest = min(start + since, self.oldest or start + since)
            elif held:
                self.unsynced += held
            if flags & 2:
                self.bad += count
            position += count
        return at


def together(marks, length):
    """The stripes that one of these has a mark for."""
    union = 0
    for mark in marks:
        union |= int.from_bytes(mark, "little")
    return union.to_bytes(length, "little")


def old_content(name, data):
    """The content of a file whose bytes are these. It is damaged if its CRC says so."""
    if data[:7] != b"SNAPCNT":
        raise Refused(f"{name}: it is no content file of SnapRAID")
    if data[:12] not in HEADERS:
        raise Refused(f"{name}: it was not written by SnapRAID 11 or 12")
    if len(data) < 17 or data[-5:-4] != b"N" or crc(data[:-4]) != int.from_bytes(data[-4:], "little"):
        raise Refused(f"{name}: it is damaged")
    content = Content()
    try:
        content.read(data)
    except (IndexError, KeyError, ValueError):
        raise Refused(f"{name}: it is not understood") from None
    return content

