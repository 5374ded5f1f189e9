#!/usr/bin/env python3
"""Writes a content file and a configuration in the first form into a folder.

usage: make_content.py FOLDER                       the example: one disk with one file, 127 bytes of content
       make_content.py FOLDER FILES BLOCKS DISKS    that many files and blocks over that many disks, for measuring

The folder then holds `content` and `array.conf`. What is written depends on the words alone.
"""
import hashlib
import os
import struct
import sys

MAGIC = b"SNAPRCF\x01"
KIND_MD5 = 1
SYNCED, FRESH = 1, 4


class File:
    """A record: its stamp, and its blocks as pairs of position and hash."""

    def __init__(self, path, size, seconds, nanos, blocks):
        self.path, self.size, self.seconds, self.nanos, self.blocks = path, size, seconds, nanos, blocks

    def spelled(self):
        path = self.path.encode()
        head = struct.pack("<H", len(path)) + path + struct.pack("<QqI", self.size, self.seconds, self.nanos)
        return head + b"".join(struct.pack("<IB", position, 1) + digest for position, digest in self.blocks)


def spelled(kib, seed, disks, last_checks):
    """The bytes of a table of one level: its disks, each a name and its files, and when each stripe was last checked."""
    body = MAGIC + struct.pack("<IBB", kib, 1, KIND_MD5) + seed
    body += struct.pack("<IB", len(last_checks), len(disks))
    parts = [body]
    for name, files in disks:
        parts.append(struct.pack("<B", len(name)) + name.encode() + struct.pack("<I", len(files)))
        parts.extend(file.spelled() for file in files)
    parts.extend(struct.pack("<BQ", SYNCED + FRESH, seconds) for seconds in last_checks)
    body = b"".join(parts)
    return body + hashlib.sha256(body).digest()


def example():
    """One file `a` of ten bytes on the disk d1, synced at 100 and not scrubbed since."""
    seed = b"abcdefghijklmnop"
    digest = hashlib.md5(seed + b"qrstuvwxyz").digest()
    return spelled(1, seed, [("d1", [File("a", 10, 1, 5, [(0, digest)])])], [100]), ["d1"]


def shares(whole, parts):
    """The whole in as many parts, as equal as can be."""
    return [whole // parts + (1 if part < whole % parts else 0) for part in range(parts)]


def many(files, blocks, disks):
    """Files of one directory in each two hundred, in the order of their paths' bytes, blocks one after the other."""
    kib, seed = 256, b"abcdefghijklmnop"
    names = ["d%d" % (disk + 1) for disk in range(disks)]
    columns, longest = [], 0
    for name, here, blocks_here in zip(names, shares(files, disks), shares(blocks, disks)):
        records, position = [], 0
        for at, count in enumerate(shares(blocks_here, here)):
            path = "%s/directory %06d/file %08d.bin" % (name, at // 200, at)
            size = max(0, count * kib * 1024 - at % 1000)
            held = []
            for _ in range(count):
                held.append((position, hashlib.md5(b"%s %d" % (name.encode(), position)).digest()))
                position += 1
            records.append(File(path, size, 1_700_000_000 + at, at % 1_000_000_000, held))
        columns.append((name, records))
        longest = max(longest, position)
    return spelled(kib, seed, columns, [1_700_000_000] * longest), names


def configuration(kib, names):
    lines = ["blocksize %d" % kib, "parity p", "content content"] + ["data %s %s" % (name, name) for name in names]
    return "".join(line + "\n" for line in lines)


def main(words):
    if len(words) not in (2, 5):
        sys.exit(__doc__)
    if len(words) == 2:
        (content, names), kib = example(), 1
    else:
        (content, names), kib = many(*(int(word) for word in words[2:])), 256
    os.makedirs(words[1], exist_ok=True)
    with open(os.path.join(words[1], "content"), "wb") as file:
        file.write(content)
    with open(os.path.join(words[1], "array.conf"), "w", newline="\n") as file:
        file.write(configuration(kib, names))


main(sys.argv)
