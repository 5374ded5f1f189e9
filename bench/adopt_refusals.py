"""What snapraid-adopt has to refuse, for bench/adopt.py: small arrays of the real snapraid, each with one thing wrong."""
import fcntl
import os
import random
import resource
import struct
import subprocess
import sys

from adopt_arrays import OldArray

TOP = os.path.dirname(os.path.dirname(os.path.abspath(__file__)))
ADOPT = os.path.join(TOP, "share", "bin", "snapraid-adopt")
STAMP = 1_600_000_000_123_456_789


def write(name, data, stamp=STAMP):
    os.makedirs(os.path.dirname(name), exist_ok=True)
    with open(name, "wb") as file:
        file.write(data)
    os.utime(name, ns=(stamp, stamp))


def other_byte(name, at, flipped=1):
    """Another byte there, and the same time."""
    stamp = os.stat(name).st_mtime_ns
    with open(name, "r+b") as file:
        file.seek(at)
        byte = file.read(1)
        file.seek(at)
        file.write(bytes([byte[0] ^ flipped]))
    os.utime(name, ns=(stamp, stamp))


def small(room, real, kib=1):
    """Three disks with a few files each, two levels, synced and scrubbed by the real tool."""
    array = OldArray(room, random.Random(1), real, levels=2, disks=3)
    array.kib = kib
    array.configure()
    for folder in array.folders:
        for number in range(3):
            write(f"{folder}/part/file{number}", array.rnd.randbytes(1024 * (number + 1)))
    array.must("sync")
    array.must("scrub", "-p", "full")
    return array


def ready(array, more=()):
    """The configuration of this program that fits it: the files of one name are laid out disk by disk here."""
    array.adopting([f"data n{place} {folder}" for place, folder in enumerate(array.folders)], more)


def tried(array, status, text, *options, limit=None):
    def limited():
        if limit is not None:
            resource.setrlimit(resource.RLIMIT_FSIZE, (limit, limit))

    words = [sys.executable, ADOPT, *options, f"{array.room}/old.conf", f"{array.room}/new.conf"]
    done = subprocess.run(words, capture_output=True, check=False, preexec_fn=limited)
    said = (done.stdout + done.stderr).decode(errors="replace")
    if done.returncode != status or text not in said:
        raise AssertionError(f"status {done.returncode}, not {status} with '{text}': {said}")
    if status != 0 and any("new" in name for name in os.listdir(array.room) if name != "new.conf" and name not in array.kept):
        raise AssertionError(f"something was written: {os.listdir(array.room)}")


def changed_array(change, text, *options, cure=None):
    """A trial: the array is changed so, and refused with this text. With other options it is taken over."""
    def trial(array):
        change(array)
        tried(array, 1, text, *options)
        if cure is not None:
            tried(array, 0, "", *cure)
    return trial


def file_of(array, number=0):
    return f"{array.folders[0]}/part/file{number}"


def unsynced(array):
    write(f"{array.folders[1]}/more", bytes(9000))
    array.run("sync", "-B", "1")


def bad(array):
    other_byte(file_of(array), 5)
    array.run("scrub", "-p", "full")


def all_copies(array, change):
    for name in array.contents():
        change(name)


def short_of_parity(array):
    os.truncate(array.parity()[1], os.path.getsize(array.parity()[1]) - 1)


def edited(array, old, new, which="new.conf"):
    with open(f"{array.room}/{which}", encoding="utf-8") as file:
        text = file.read()
    if old not in text:
        raise AssertionError(f"no {old} in {which}")
    with open(f"{array.room}/{which}", "w", encoding="utf-8") as file:
        file.write(text.replace(old, new))


def again(array, *words):
    array.must("sync", *words)
    array.must("scrub", "-p", "full")


def old_name(name):
    """A file of this name on the first disk, which the old tool has synced."""
    def change(array):
        path = os.path.join(os.fsencode(array.folders[0]), name)
        os.makedirs(os.path.dirname(path), exist_ok=True)
        with open(path, "wb") as file:
            file.write(b"text")
        again(array)
    return change


def split(array):
    """Each level is split over two files, both of which are used."""
    for name in array.parity():
        edited(array, name, f"{name},{name}-second", "old.conf")
        os.remove(name)
    for folder in array.folders:
        write(f"{folder}/large", array.rnd.randbytes(60_000))
    again(array, "-F", "--test-parity-limit", "40000")


def existing(array):
    array.kept.add("new1")
    write(f"{array.room}/new1", b"")


def hard_links(array):
    """A second name of a file: it is left out by the line that is suggested."""
    os.link(file_of(array), f"{array.folders[0]}/part/second [name]")
    again(array)
    tried(array, 1, "the old program has it as a hard link")
    tried(array, 1, "exclude /part/second ?name]\n", "--suggest")
    ready(array, ["exclude /part/second ?name]"])
    tried(array, 0, "9 files unchanged, 0 changed, 0 gone and 0 new")


def content_among_data(array):
    """A content file of the old array stands on a data disk, as its manual wants it."""
    edited(array, f"content {array.room}/old1", f"content {array.folders[1]}/old.content", "old.conf")
    again(array)
    array.contents = lambda: [f"{array.room}/old0", f"{array.folders[1]}/old.content", f"{array.room}/old2"]
    tried(array, 1, "n1:old.content: this file of the old program would be data")
    tried(array, 1, "exclude /old.content\n", "--suggest")
    ready(array, ["exclude /old.content"])
    tried(array, 0, "9 files unchanged, 0 changed, 0 gone and 0 new")


def held(array):
    with open(f"{array.room}/old0.lock", "wb") as file:
        fcntl.flock(file, fcntl.LOCK_EX)
        tried(array, 1, "another run holds it")
    tried(array, 0, "")


def words(array):
    for wrong in (["--no-such-option"], ["a third word"], ["--scrubbed-within", "x"], ["--scrubbed-within", "36501"]):
        tried(array, 2, "See snapraid-adopt --help", *wrong)


def missing(array):
    os.remove(f"{array.room}/old.conf")
    tried(array, 3, "old.conf: No such file or directory")


def full_disk(array):
    """No copy stays if one cannot be written."""
    tried(array, 3, "File too large", limit=100)


def large_blocks(array):
    """An array whose blocks are larger than those of this program."""
    os.mkdir(f"{array.room}/large")
    large = small(f"{array.room}/large", array.real, kib=8192)
    large.kept, large.kib = set(), 4096
    ready(large)
    tried(large, 1, "blocks of 8388608 bytes are not those of this program")


def no_nanoseconds(array):
    """Times that were recorded without nanoseconds are those of the disks."""
    seconds, nanos = divmod(STAMP, 1_000_000_000)
    value, recorded = nanos + 1, bytearray()
    while value > 0x7F:
        recorded.append(value & 0x7F)
        value >>= 7
    recorded.append(value | 0x80)
    with open(array.contents()[0], "rb") as file:
        data = file.read()[:-4]
    if data.count(recorded) != 9:
        raise AssertionError("other times than those of the nine files were recorded")
    data = data.replace(recorded, b"\x80")
    for name in array.contents():
        write(name, data + plain_crc(data).to_bytes(4, "little"))
    tried(array, 0, "9 files unchanged, 0 changed, 0 gone and 0 new")
    with open(f"{array.room}/new0", "rb") as file:
        if file.read().count(struct.pack("<qI", seconds, nanos)) != 9:
            raise AssertionError("the times of the disks were not taken")


def plain_crc(data):
    """CRC-32C, bit by bit."""
    state = 0xFFFFFFFF
    for byte in data:
        state ^= byte
        for _ in range(8):
            state = state >> 1 ^ (0x82F63B78 if state & 1 else 0)
    return state ^ 0xFFFFFFFF


TRIALS = {
    "blocks that are not synced": changed_array(unsynced, "blocks are not synced"),
    "deleted blocks": changed_array(lambda a: (os.remove(file_of(a, 2)), a.run("sync", "-B", "1")), "deleted ones are in the parity"),
    "bad stripes": changed_array(bad, "1 stripes are bad"),
    "copies that differ": changed_array(lambda a: os.truncate(a.contents()[2], 30), "differs from"),
    "a copy that is gone": changed_array(lambda a: os.remove(a.contents()[1]), "is not there"),
    "an empty copy": changed_array(lambda a: os.truncate(a.contents()[0], 0), "is empty"),
    "a damaged byte": changed_array(lambda a: all_copies(a, lambda name: other_byte(name, 40)), "it is damaged"),
    "a cut content file": changed_array(lambda a: all_copies(a, lambda name: os.truncate(name, 60)), "it is damaged"),
    "an older content file": changed_array(lambda a: all_copies(a, lambda name: other_byte(name, 7, 3)), "by SnapRAID 11 or 12"),
    "no content file": changed_array(lambda a: all_copies(a, lambda name: other_byte(name, 0)), "no content file of SnapRAID"),
    "a scrub of long ago": changed_array(lambda a: None, "Run 'scrub -p full'", "--scrubbed-within", "0", cure=["--compare"]),
    "rot behind the scrub": changed_array(lambda a: other_byte(file_of(a, 2), 1500), "parity is not the sum", "--compare"),
    "wrong parity": changed_array(lambda a: other_byte(a.parity()[1], 5), "stripe 0: 2-parity is not the sum"),
    "short parity": changed_array(short_of_parity, "this parity file is too short"),
    "lost parity": changed_array(lambda a: os.remove(a.parity()[0]), "this parity file is not there"),
    "the other third level": changed_array(lambda a: edited(a, "\n2-parity", "\nz-parity", "old.conf"), "'z-parity'"),
    "used parts": changed_array(split, "parity is split over several files that are used"),
    "a name that is not UTF-8": changed_array(old_name(b"x\xff"), "this name cannot be recorded"),
    "a name of lost files": changed_array(old_name(b"x.unrecoverable/y"), "this name cannot be recorded"),
    "a new file": changed_array(lambda a: write(f"{a.folders[1]}/new", b"x"), "n1:new: it is new", cure=["--allow-changes"]),
    "another time": changed_array(lambda a: os.utime(file_of(a), ns=(0, STAMP + 1)), "it changed", cure=["--allow-changes"]),
    "another size": changed_array(lambda a: write(file_of(a), b"x"), "it changed", cure=["--allow-changes", "--compare"]),
    "a file that is gone": changed_array(lambda a: os.remove(file_of(a)), "it is gone", cure=["--allow-changes"]),
    "a file that a rule leaves out": changed_array(lambda a: ready(a, ["exclude file1"]), "or a rule leaves it out"),
    "a new content file that is there": changed_array(existing, "is there already"),
    "the old content file": changed_array(lambda a: edited(a, "/new0", "/old0"), "Give the new content files other names"),
    "another block size": changed_array(lambda a: edited(a, f"blocksize {a.kib}", "blocksize 256"), "has to say: blocksize"),
    "other parity": changed_array(lambda a: edited(a, "\n2-parity ", "\n2-parity /dev/shm"), "has to say: 2-parity"),
    "one level more": changed_array(lambda a: edited(a, "\n2-parity", "\n3-parity /dev/shm/x\n2-parity"), "has to say nothing of 3-parity"),
    "another order": changed_array(lambda a: a.adopting([f"data n {a.folders[1]}", f"data m {a.folders[0]}", f"data o {a.folders[2]}"]),
                                   "these data lines first, in this order"),
    "a disk less": changed_array(lambda a: edited(a, f"data n2 {a.folders[2]}", ""), "these data lines first, in this order"),
    "a keyword that is none": changed_array(lambda a: ready(a, ["what ever"]), "unknown keyword"),
    "hard links": hard_links,
    "content files among the data": content_among_data,
    "blocks that are too large": large_blocks,
    "times without nanoseconds": no_nanoseconds,
    "a run of the old program": held,
    "wrong words": words,
    "no configuration": missing,
    "a full disk": full_disk,
}


def refuse_all(room, real):
    """Each trial in a folder of its own."""
    for number, (name, trial) in enumerate(TRIALS.items()):
        folder = f"{room}/{number}"
        os.mkdir(folder)
        array = small(folder, real)
        array.kept = set()
        ready(array)
        try:
            trial(array)
        except AssertionError as wrong:
            raise AssertionError(f"{name}, in {folder}: {wrong}") from wrong
        print(f"as it has to be: {name}", flush=True)
