#!/usr/bin/env python3
"""How long snapraid-adopt takes for a large array: of files that are holes, and a content file as SnapRAID 12 would write it.

usage: bench/adopt_scale.py FOLDER [BLOCKS] [FILES] [DISKS]     a million blocks in ten thousand files on eight disks

The folder is made, on a file system that keeps holes. It prints wall and processor seconds, and the most memory.
"""
import os
import resource
import subprocess
import sys
import time

TOP = os.path.dirname(os.path.dirname(os.path.abspath(__file__)))
sys.path.insert(0, os.path.join(TOP, "share", "adopt"))
from crc import crc  # noqa: E402

BLOCK, STAMP = 262_144, 1_700_000_000


def number(value):
    out = bytearray()
    while value > 0x7F:
        out.append(value & 0x7F)
        value >>= 7
    return bytes(out) + bytes([value | 0x80])


def text(value):
    return number(len(value)) + value


def disk(room, mapping, files, blocks):
    """The records of one disk, whose files are made too: each so long that all together have so many blocks."""
    out, position = bytearray(), 0
    for at in range(files):
        count = blocks // files + (at < blocks % files)
        path = f"folder {at // 200:06}/file {at:08}"
        name = f"{room}/d{mapping}/{path}"
        os.makedirs(os.path.dirname(name), exist_ok=True)
        with open(name, "wb") as file:
            file.truncate(count * BLOCK)
        os.utime(name, ns=(STAMP * 10**9 + at, STAMP * 10**9 + at))
        out += b"f" + number(mapping) + number(count * BLOCK) + number(STAMP) + number(at + 1) + number(at + 7) + text(path.encode())
        if count:
            out += b"b" + number(position) + number(count) + os.urandom(16 * count)
        position += count
    return bytes(out), position


def write_array(room, blocks, files, disks):
    os.makedirs(room)
    made = [disk(room, at, files // disks, blocks // disks) for at in range(disks)]
    length = max(position for _, position in made)
    out = bytearray(b"SNAPCNT2\n\3\0\0z" + number(BLOCK) + b"x" + number(length) + b"ck" + bytes(16))
    for at in range(disks):
        out += b"M" + text(b"d%d" % at) + number(at) + number(0) + number(0) + text(b"")
    out += b"P" + number(0) + number(0) + number(0) + text(b"")
    for at, (records, _) in enumerate(made):
        out += records + b"h" + number(at) + number(length) + b"O"
    out += b"i" + number(int(time.time())) + number(length) + number(1) + number(0) + b"N"
    with open(f"{room}/old", "wb") as file:
        file.write(out + crc(bytes(out)).to_bytes(4, "little"))
    with open(f"{room}/parity", "wb") as file:
        file.truncate(length * BLOCK)
    for name in ("old", "new"):
        with open(f"{room}/{name}.conf", "w", encoding="ascii") as file:
            file.write(f"content {room}/{name}\nparity {room}/parity\n")
            file.write("".join(f"data d{at} {room}/d{at}\n" for at in range(disks)))


def main(words):
    if not 2 <= len(words) <= 5:
        sys.exit(__doc__)
    room = words[1]
    blocks, files, disks = (int(word) for word in words[2:] + ["1000000", "10000", "8"][len(words) - 2:])
    write_array(room, blocks, files, disks)
    began = time.monotonic()
    subprocess.run([os.path.join(TOP, "share", "bin", "snapraid-adopt"), f"{room}/old.conf", f"{room}/new.conf"], check=True)
    used = resource.getrusage(resource.RUSAGE_CHILDREN)
    print(f"{time.monotonic() - began:.1f} s, {used.ru_utime + used.ru_stime:.1f} processor s, {used.ru_maxrss // 1024} MiB")


main(sys.argv)
