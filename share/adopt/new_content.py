"""Writes content files of this program, version 1, in which every stripe is pending and no block has a hash."""
import array
import hashlib
import os
import struct

MAGIC = b"SNAPRCF\x01"
KIND_MD5 = 1
SHORT_RUN = 8


def spelled_run(position, count):
    """The blocks of a run: each its position, and a zero for no hash."""
    if count < SHORT_RUN:
        return b"".join(struct.pack("<IB", at, 0) for at in range(position, position + count))
    plain, spelled = array.array("I", range(position, position + count)).tobytes(), bytearray(5 * count)
    for byte in range(4):
        spelled[byte::5] = plain[byte::4]
    return spelled


def spelled_records(records, out):
    for record in records:
        out += struct.pack("<H", len(record.path)) + record.path
        out += struct.pack("<QqI", record.size, record.seconds, record.nanos or 0)
        for position, count in zip(record.runs[::2], record.runs[1::2]):
            out += spelled_run(position, count)


def spelled(kib, levels, columns):
    """The bytes of a table. Each column is a name, and records in the order of their paths."""
    length = 0
    for _, records in columns:
        for record in records:
            for position, count in zip(record.runs[::2], record.runs[1::2]):
                length = max(length, position + count)
    out = bytearray(MAGIC + struct.pack("<IBB", kib, levels, KIND_MD5) + os.urandom(16))
    out += struct.pack("<IB", length, len(columns))
    for name, records in columns:
        out += struct.pack("<B", len(name)) + name.encode() + struct.pack("<I", len(records))
        spelled_records(records, out)
    out += bytes(9 * length)  # flags and last check of each stripe
    return bytes(out + hashlib.sha256(out).digest())


def write_copies(names, content):
    """Writes the content to files that were not there. If one fails, none of them stays."""
    made = []
    try:
        for name in names:
            fd = os.open(name, os.O_WRONLY | os.O_CREAT | os.O_EXCL, 0o600)
            made.append(name)
            with os.fdopen(fd, "wb") as file:
                file.write(content)
                file.flush()
                os.fsync(file.fileno())
        for name in names:
            sync_folder(os.path.dirname(name) or ".")
    except BaseException:
        for name in made:
            os.unlink(name)
        raise


def sync_folder(name):
    fd = os.open(name, os.O_RDONLY | os.O_DIRECTORY)
    try:
        os.fsync(fd)
    finally:
        os.close(fd)
