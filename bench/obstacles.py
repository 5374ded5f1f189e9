#!/usr/bin/env python3
"""Runs over arrays in whose way something stands that only a real file system has: links, pipes, folders that can't be written, full disks,
files that are gone.

usage: bench/obstacles.py [PROGRAM [WORD]]     the built program of this repository where nothing is given; the cases whose names hold the word
Each case damages an array that was synced, runs a fix, and compares its status, what it printed on standard error, and all files with
what is wanted: nothing that was whole may change, and nothing outside the array. Then the obstacle goes, and another fix has to bring
all files back. Of another command status and standard error are compared, and once the obstacle is gone a sync and a check have to end
with 0. The scenes of guards.py follow. It runs in a name space of its own, where it may mount small file systems.
"""
import os
import shutil
import subprocess
import sys
import tempfile

from guards import SCENES

TOP = os.path.dirname(os.path.dirname(os.path.abspath(__file__)))
CONFIG = """parity {room}/par/p
2-parity {room}/q
content {room}/c/content
data d1 {room}/d1/
data d2 {room}/d2/
blocksize 1
"""
LONG = "n" * 250
FIRST = "snapraid: disk 'd1' failed\nsnapraid: "
VAULT = "snapraid: parity or content failed\nsnapraid: "
NO_FILE = "': not a regular file\n"
NO_ROOM = "': No space left on device\n"
LACKING = ("' was not there: mount its disk, make it empty if it is new, "
           "or give it its full length if it is lost (see the manual)\n")
MISSING = "snapraid: parity file '{room}/par/p" + LACKING
GONE = "snapraid: parity or content failed\n" + MISSING
# Times of the earliest files, in nanoseconds since 1970. A fix can't set one before 1970: it says so, and goes on.
FIRST_OF_1970 = "d1/first"
BEFORE_1970 = {"d2/before": -1, "d2/half": -500_000_000, "d2/oldest": -2**31 * 10**9}
EARLY = {FIRST_OF_1970: 0, **BEFORE_1970}


class Array:
    """Two disks, two levels and one content copy, and files outside of them."""

    def __init__(self, room, program):
        self.room = room
        self.program = program
        for folder in ("d1/s", "d2", "par", "c", "outside"):
            os.makedirs(self.at(folder))
        self.put("d1/a", b"a" * 200_000)
        self.put("d1/s/b", b"0123456789")
        self.put("d1/" + LONG, b"long name")
        self.put("d2/c", b"c" * 2_000)
        self.put("outside/b", b"outside")
        for name in EARLY:
            self.put(name, name.encode())
        set_early_times(self)
        with open(self.at("conf"), "w", encoding="ascii") as out:
            out.write(CONFIG.format(room=room))
        if self.run("sync")[0] != 0:
            sys.exit("the array is not synced")
        self.whole = self.files()

    def at(self, name):
        return os.path.join(self.room, name)

    def put(self, name, data):
        with open(self.at(name), "wb") as out:
            out.write(data)
        os.utime(self.at(name), ns=(5, 1_000_000_005))

    def run(self, command):
        done = subprocess.run([self.program, *command.split(), "-c", self.at("conf")], capture_output=True, text=True, check=False)
        return done.returncode, done.stdout, done.stderr

    def files(self):
        """All that stands in the array: regular files by their bytes, those of the disks also by their time, links by what they name,
        and the rest by kind."""
        seen = {}
        for folder, folders, names in os.walk(self.room):
            for name in folders + names:
                path = os.path.join(folder, name)
                short = os.path.relpath(path, self.room)
                if os.path.islink(path):
                    seen[short] = "-> " + os.readlink(path)
                elif os.path.isfile(path):
                    with open(path, "rb") as held:
                        seen[short] = (held.read(), os.stat(path).st_mtime_ns if short.startswith("d") else None)
                elif not os.path.isdir(path):
                    seen[short] = "no file"
        return seen


def set_early_times(array):
    for name, time in EARLY.items():
        os.utime(array.at(name), ns=(5, time))


def replaced_by_link(name, target):
    """A link in the place of a file or of a folder."""
    def damage(array):
        remove(array, name)
        os.symlink(array.at(target), array.at(name))
    return damage


def remove(array, name):
    path = array.at(name)
    if os.path.isdir(path) and not os.path.islink(path):
        shutil.rmtree(path)
    else:
        os.remove(path)


def removed(*names):
    def damage(array):
        for name in names:
            remove(array, name)
    return damage


def folder_in_place(name):
    def damage(array):
        remove(array, name)
        os.mkdir(array.at(name))
    return damage


def pipe_in_place(name):
    def damage(array):
        remove(array, name)
        os.mkfifo(array.at(name))
    return damage


def cut(name, length):
    def damage(array):
        os.truncate(array.at(name), length)
    return damage


def lost(name, link):
    """A file that no level restores, since both are gone, and a link under the name that it would get."""
    def damage(array):
        array.put(name, b"other bytes")
        remove(array, "par/p")
        remove(array, "q")
        if link:
            os.symlink(array.at("outside/b"), array.at(name + ".unrecoverable"))
    return damage


def read_only(*names):
    """The first disk can't be written."""
    def damage(array):
        for name in names:
            remove(array, name)
        disk = array.at("d1")
        subprocess.run(["mount", "--bind", disk, disk], check=True)
        subprocess.run(["mount", "-o", "remount,ro,bind", disk], check=True)
    return damage


def small_disk(array):
    """The first disk was replaced by one on which a part of its files fits."""
    shutil.rmtree(array.at("d1"))
    os.mkdir(array.at("d1"))
    subprocess.run(["mount", "-t", "tmpfs", "-o", "size=64k", "tmpfs", array.at("d1")], check=True)


def full(folder):
    """What stood in a folder lies on a disk of its own, with room for 4 KiB more."""
    def damage(array):
        shutil.copytree(array.at(folder), array.at("kept"))
        size = 4096 + sum(-(-os.path.getsize(held.path) // 4096) * 4096 for held in os.scandir(array.at("kept")))
        subprocess.run(["mount", "-t", "tmpfs", "-o", f"size={size}", "tmpfs", array.at(folder)], check=True)
        shutil.copytree(array.at("kept"), array.at(folder), dirs_exist_ok=True)
        shutil.rmtree(array.at("kept"))
        array.put("d1/new", b"n" * 40_000)
    return damage


def empty_mount(array):
    """The parity disk is not mounted: below lies an empty folder."""
    subprocess.run(["mount", "-t", "tmpfs", "tmpfs", array.at("par")], check=True)
    array.put("d1/new", b"new")


def in_two_files(array):
    """The first level has another file at its end, which is not there yet."""
    with open(array.at("conf"), "w", encoding="ascii") as out:
        out.write(CONFIG.format(room=array.room).replace("par/p\n", f"par/p,{array.room}/p2\n"))


def first_of_two_gone(array):
    in_two_files(array)
    array.put("p2", b"")
    remove(array, "par/p")


def second_not_made(array):
    in_two_files(array)
    array.put("d1/new", b"n" * 400_000)


def no_utf8(array):
    with open(os.path.join(os.fsencode(array.at("d1/s")), b"bad\xff"), "wb"):
        pass


def utf8(array):
    os.remove(os.path.join(os.fsencode(array.at("d1/s")), b"bad\xff"))


def unmounted(array):
    subprocess.run(["umount", array.at("d1")], check=True)


def without_mount(folder):
    def clear(array):
        subprocess.run(["umount", array.at(folder)], check=True)
    return clear


def larger(array):
    subprocess.run(["mount", "-o", "remount,size=16m", array.at("d1")], check=True)


def without(*names):
    """The obstacle goes."""
    def clear(array):
        for name in names:
            remove(array, name)
    return clear


def nothing(_array):
    pass


# What it is, the damage, the status, what stands on standard error, the end of what is printed, which files the fix may make or change
# (all else stays), and how the obstacle goes. None for the last means that the array can't be brought back.
MADE = FIRST + "make '{room}/"
CASES = [
    ("a link to a file in the place of a file", replaced_by_link("d1/a", "outside/b"), 3, MADE + "d1/a" + NO_FILE, "", (), without("d1/a")),
    ("a link to nothing in the place of a file", replaced_by_link("d1/a", "outside/new"), 3, MADE + "d1/a" + NO_FILE, "", (), without("d1/a")),
    ("a link in the place of a folder", replaced_by_link("d1/s", "outside"), 3, MADE + "d1/s/b': not a directory\n", "", (), without("d1/s")),
    ("an empty folder in the place of a file", folder_in_place("d1/a"), 3, MADE + "d1/a" + NO_FILE, "", (), without("d1/a")),
    ("a pipe in the place of a file", pipe_in_place("d1/a"), 3, MADE + "d1/a" + NO_FILE, "", (), without("d1/a")),
    ("a link under the name of a lost file", lost("d1/s/b", True), 3, FIRST + "rename '{room}/d1/s/b" + NO_FILE, "", ("par/p", "q"), None),
    ("no room for the name of a lost file", lost("d1/" + LONG, False), 3, FIRST + "rename '{room}/d1/" + LONG + "': File name too long\n", "",
     ("par/p", "q"), None),
    ("a folder that can't be written", read_only("d1/a", "d2/c"), 3, MADE + "d1/a': Read-only file system\n", "", (), unmounted),
    ("a folder that can't be written and need not be", read_only("d2/c"), 0, "",
     "restored d2:c\nfix: 2 blocks and 0 parities fixed, 0 findings left\n", ("d2/c",), unmounted),
    ("a full disk in the middle of a file", small_disk, 3, FIRST + "write '{room}/d1/a" + NO_ROOM, "", ("d1/a",), larger),
    ("a missing parity file", removed("par/p"), 0, "", "fix: 0 blocks and 199 parities fixed, 0 findings left\n", ("par/p",), nothing),
    ("a parity file cut in a block", cut("par/p", 1_500), 0, "", "fix: 0 blocks and 198 parities fixed, 0 findings left\n", ("par/p",), nothing),
    ("a parity file cut, and a lost file", lambda array: (cut("par/p", 1_500)(array), remove(array, "d2/c")), 0, "",
     "restored d2:c\nfix: 2 blocks and 198 parities fixed, 0 findings left\n", ("par/p", "d2/c"), nothing),
    ("a folder in the place of a parity file", lambda array: (folder_in_place("par/p")(array), remove(array, "d2/c")), 0,
     "snapraid: read '{room}/par/p" + NO_FILE, "restored d2:c\nfix: 2 blocks and 0 parities fixed, 0 findings left\n", ("d2/c",),
     lambda array: os.rmdir(array.at("par/p"))),
    ("a folder in the place of the content file", folder_in_place("c/content"), 3, VAULT + "look at '{room}/c/content" + NO_FILE, "", (), None),
    ("a file of the first moment of 1970 that is gone", removed(FIRST_OF_1970), 0, "", "fix: 1 blocks and 0 parities fixed, 0 findings left\n",
     (FIRST_OF_1970,), nothing),
    ("files from before 1970 that are gone, until their times are set by hand", removed("d2/c", *BEFORE_1970), 0, "",
     "restored d2:before\nno-stamp d2:before\nrestored d2:c\nrestored d2:half\nno-stamp d2:half\nrestored d2:oldest\nno-stamp d2:oldest\n"
     "fix: 5 blocks and 0 parities fixed, 0 findings left\n", ("d2/c", *BEFORE_1970), set_early_times),
]

# What it is, the damage, the command, its status, what stands on standard error, and how the obstacle goes.
OTHERS = [
    ("a parity disk that is not mounted", empty_mount, "sync", 3, GONE, without_mount("par")),
    ("a parity file that is gone at a check", removed("par/p"), "check", 1, MISSING, lambda array: array.run("fix")),
    ("a parity file that is gone at a scrub", removed("par/p"), "scrub -p full", 1, MISSING, lambda array: array.run("fix")),
    ("a parity file that is gone at a sync with nothing to do", removed("par/p"), "sync", 3, GONE, lambda array: array.run("fix")),
    ("the first of two files of a level that is gone at a check", first_of_two_gone, "check", 1, MISSING, lambda array: array.run("fix")),
    ("a file at the end of a level that was not made", second_not_made, "sync", 3, VAULT + "parity file '{room}/p2" + LACKING,
     lambda array: array.put("p2", b"")),
    ("a full disk under parity", full("par"), "sync", 3, VAULT + "write '{room}/par/p" + NO_ROOM, without_mount("par")),
    ("a full disk under content", full("c"), "sync", 3, VAULT + "write '{room}/c/content.tmp" + NO_ROOM, without_mount("c")),
    ("a folder in the place of a level", folder_in_place("q"), "sync", 3, VAULT + "look at '{room}/q" + NO_FILE,
     lambda array: (os.rmdir(array.at("q")), array.run("fix"))),
    ("a name that is not UTF-8", no_utf8, "sync", 3, FIRST + "list '{room}/d1/s': a name in it is not UTF-8\n", utf8),
    ("a disk that is gone", lambda array: os.rename(array.at("d1"), array.at("away")), "check", 3,
     FIRST + "list '{room}/d1': No such file or directory\n", lambda array: os.rename(array.at("away"), array.at("d1"))),
]


def differing(one, other, but):
    """The first name that two states of an array don't share, or hold otherwise."""
    for name in sorted(one.keys() | other.keys()):
        if name not in but and one.get(name) != other.get(name):
            return name
    return None


def try_case(array, case):
    """What is wrong, if anything is."""
    _, damage, status, line, end, may, clear = case
    damage(array)
    before = array.files()
    got, out, err = array.run("fix")
    if (got, err) != (status, line.format(room=array.room)):
        return f"status {got}, {err!r}"
    if not out.endswith(end):
        return f"printed {out!r}"
    name = differing(before, array.files(), may)
    if name is not None:
        return f"{name} was changed"
    if clear is None:
        return None
    clear(array)
    got, out, err = array.run("fix")
    if got != 0:
        return f"then status {got}, {out!r}, {err!r}"
    name = differing(array.whole, array.files(), ())
    if name is not None:
        return f"{name} is not restored"
    return None


def try_other(array, case):
    """The same for another command."""
    _, damage, command, status, line, clear = case
    damage(array)
    got, out, err = array.run(command)
    if (got, err) != (status, line.format(room=array.room)):
        return f"status {got}, {out!r}, {err!r}"
    clear(array)
    for again in ("sync", "check"):
        got, out, err = array.run(again)
        if got != 0:
            return f"then {again} status {got}, {out!r}, {err!r}"
    return None


def try_scene(array, case):
    """The same for a scene, which says itself what is wrong."""
    return case[1](array)


def main():
    if "HADLIXU_OBSTACLES" not in os.environ:
        os.environ["HADLIXU_OBSTACLES"] = "1"
        os.execvp("unshare", ["unshare", "--map-root-user", "--mount", sys.executable, os.path.abspath(__file__), *sys.argv[1:]])
    program = os.path.abspath(sys.argv[1]) if len(sys.argv) > 1 else os.path.join(TOP, "crates", "snapraid", "out", "snapraid")
    only = sys.argv[2] if len(sys.argv) > 2 else ""
    tries = [(try_case, CASES), (try_other, OTHERS), (try_scene, SCENES)]
    wrong, count = 0, 0
    for play, case in ((play, case) for play, cases in tries for case in cases):
        if only not in case[0]:
            continue
        with tempfile.TemporaryDirectory() as room:
            said = play(Array(os.path.join(room, "array"), program), case)
            for folder in ("d1", "par", "c"):
                subprocess.run(["umount", os.path.join(room, "array", folder)], stderr=subprocess.DEVNULL, check=False)
        wrong, count = wrong + (said is not None), count + 1
        print(f"{case[0]}: {'as wanted' if said is None else said}", flush=True)
    print(f"{count} cases, {wrong} of them otherwise than is wanted")
    sys.exit(1 if wrong else 0)


main()
