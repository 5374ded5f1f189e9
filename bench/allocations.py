#!/usr/bin/env python3
"""Refuses each allocation of each command in turn, one a run, and looks at what is left.

usage: bench/allocations.py [PROGRAM] [--minutes N] [--jobs N] [--first SEED] [--arrays N] [--fixed sync|fix]
The built program of this repository where none is given; ten minutes, all processors, and as many arrays as fit into that time.

The arrays, the commands and what is wanted of what is left are those of crashes.py. Each command is run once as it is. Then, from the
same start each time, its first allocation is refused, its second one, and so on, until some runs in a row meet no refusal: threads may
ask for more in one run than in another. Beside what crashes.py wants after a call that failed:

- a run may end with 4, and says then that memory ran out;
- a sync that ends with 4 has written no block of parity;
- a run of which no allocation was refused ends as the one that was counted.

With --fixed one command over one array that is not random is gone through to its end, and what it and the next run print is compared,
too. `sync` is the first sync of one disk with five files of a block each, with one level and two content copies. `fix` is the fix of
three disks with a file each under three levels, where the files of two disks are gone and the first level has a wrong byte.

It needs Linux, Python, a C compiler, and a program that takes its memory by malloc and realloc. The last line says how many allocations
were refused, and how many of those runs ended with 4.
"""
import argparse
import mmap
import os
import shutil
import struct
import subprocess
import sys
import tempfile
import time

TOP = os.path.dirname(os.path.dirname(os.path.abspath(__file__)))
sys.path.insert(0, os.path.join(TOP, "bench"))
from crash_array import Array, FixedArray, put, read  # noqa: E402
from crashes import ALWAYS, OPENING, UNSAFE, VAULT, Case, State, cases, gather  # noqa: E402
from tracing import Call, Outcome, Tamper  # noqa: E402

MEMORY = "snapraid: out of memory\n"
# The refused allocation may be one that a thread makes now and then.
MORE = 3
COUNTS = struct.Struct("4Q")

# It counts and refuses. The four numbers stand in a file: which is refused, how many were asked for, whether one was refused, and how
# many blocks of parity were written.
LIBRARY = r"""
#define _GNU_SOURCE
#include <errno.h>
#include <fcntl.h>
#include <stdatomic.h>
#include <stdio.h>
#include <stdlib.h>
#include <string.h>
#include <sys/mman.h>
#include <sys/syscall.h>
#include <unistd.h>

extern void *__libc_malloc(size_t);
extern void *__libc_realloc(void *, size_t);

static struct { unsigned long at; atomic_ulong made, refused, written; } none, *counts = &none;
static const char *levels = "";

__attribute__((constructor)) static void begin(void) {
    const char *name = getenv("ALLOCATION_COUNTS");
    int fd = name ? open(name, O_RDWR | O_CLOEXEC) : -1;
    if (fd < 0) return;
    void *found = mmap(0, sizeof none, PROT_READ | PROT_WRITE, MAP_SHARED, fd, 0);
    close(fd);
    levels = getenv("ALLOCATION_LEVELS");
    if (found != MAP_FAILED && levels) counts = found;
}

static int refuses(void) {
    if (counts == &none) return 0;
    if (atomic_fetch_add(&counts->made, 1) + 1 != counts->at) return 0;
    atomic_fetch_add(&counts->refused, 1);
    errno = ENOMEM;
    return 1;
}

void *malloc(size_t size) { return refuses() ? 0 : __libc_malloc(size); }

void *realloc(void *old, size_t size) { return refuses() ? 0 : __libc_realloc(old, size); }

static void sees(int fd) {
    char link[40], name[4096];
    snprintf(link, sizeof link, "/proc/self/fd/%d", fd);
    ssize_t size = readlink(link, name, sizeof name - 1);
    if (size <= 0) return;
    name[size] = 0;
    if (strncmp(name, levels, strlen(levels)) == 0) atomic_fetch_add(&counts->written, 1);
}

ssize_t pwrite(int fd, const void *bytes, size_t size, off_t at) {
    if (counts != &none) sees(fd);
    return syscall(SYS_pwrite64, fd, bytes, size, at);
}

ssize_t pwrite64(int fd, const void *bytes, size_t size, off_t at) __attribute__((alias("pwrite")));
"""


def compiled(folder):
    """The library, made in a folder."""
    source, made = f"{folder}/allocations.c", f"{folder}/allocations.so"
    with open(source, "w", encoding="ascii") as out:
        out.write(LIBRARY)
    subprocess.run(["cc", "-O1", "-shared", "-fPIC", "-fno-builtin", "-o", made, source], check=True)
    return made


class Refused(Case):
    """A command of which an allocation is refused."""

    def run(self, tamper):
        self.loaded, self.clock = self.array.contents(), int(time.time())
        room = self.array.room
        # beside the array, of which every file is looked at
        numbers = f"{room}.counts"
        with open(numbers, "wb") as out:
            out.write(COUNTS.pack(tamper.number, 0, 0, 0))
        env = {**os.environ, "LD_PRELOAD": self.array.library, "ALLOCATION_COUNTS": numbers, "ALLOCATION_LEVELS": f"{room}/p"}
        with open(f"{room}/out", "wb") as out, open(f"{room}/err", "wb") as err:
            status = subprocess.run(self.words, env=env, stdin=subprocess.DEVNULL, stdout=out, stderr=err, check=False).returncode
        with open(numbers, "r+b") as held, mmap.mmap(held.fileno(), COUNTS.size) as found:
            _, self.made, refused, self.written = COUNTS.unpack_from(found)
        said = []
        for name in ("out", "err"):
            with open(f"{room}/{name}", "rb") as held:
                said.append(held.read().decode(errors="replace"))
        return Outcome(status, *said, [], Call("malloc", "", False, ()) if refused else None)

    def said(self, outcome, tamper):
        if outcome.status != 4:
            return super().said(outcome, tamper)
        if outcome.err != MEMORY:
            return f"status 4, and {outcome.err!r}"
        return "a sync ends with 4 after it wrote parity" if self.command == "sync" and self.written else None

    def causes(self, call):
        return {OPENING, UNSAFE, VAULT, *ALWAYS, *(f"disk 'd{disk + 1}' failed" for disk in range(self.array.disks))}


def refuse_each(case, name, end, tell):
    """Refuses each allocation of a command in turn. Answers whether some runs in a row met no refusal before the end."""
    wrong = case.goes_well()
    if wrong is None and case.made == 0:
        wrong = "it takes its memory in another way"
    if wrong is not None:
        tell("", f"{name}, with nothing refused: {wrong}")
        return False
    number = missed = 0
    while missed < MORE:
        if time.time() > end:
            return False
        number += 1
        case.array.bring_back()
        tamper = Tamper("refuse", number)
        outcome = case.run(tamper)
        if outcome.hit is None:
            missed += 1
            if (outcome.status, outcome.out, outcome.err) != (case.plain.status, case.plain.out, case.plain.err):
                tell("", f"{name}: nothing was refused, and it ends with {outcome.status}, {outcome.err!r}, {outcome.out!r}")
            continue
        missed = 0
        wrong = case.said(outcome, tamper) or case.left(outcome) or case.next_run()
        tell("4" if outcome.status == 4 else "other", f"{name}: allocation {number}: {wrong}" if wrong else "")
    return True


def play(array, seed, end, tell):
    """Each allocation of each command over one array, as far as the time lasts."""
    for case in cases(array, Refused):
        if not refuse_each(case, f"seed {seed}: {case.command}", end, tell):
            return
        array.bring_back()
        if case.command == "sync":
            case.run(Tamper())
    tell("array", "")


SYNCED = "sync: 5 stripes synced, 0 pending\n"
FIXED = """changed d1:a recorded 1 1.000000005 found nothing
changed d2:a recorded 1 1.000000005 found nothing
wrong-parity 0 parity
fixed 0 d1:a 0
fixed 0 d2:a 0
fixed-parity 0 parity
restored d1:a
restored d2:a
fix: 2 blocks and 1 parities fixed, 0 findings left
"""


class RefusedFixed(Refused):
    """The same over an array that is not random, where it is known what is printed."""

    def goes_well(self):
        wanted = {"sync": SYNCED, "fix": FIXED}[self.command]
        if (self.plain.status, self.plain.out) != (0, wanted):
            return f"status {self.plain.status}, {self.plain.out!r}"
        return super().goes_well()

    def next_run(self):
        wanted = self.next_text()
        return super().next_run() or (None if wanted in (None, self.again.out) else f"then it prints {self.again.out!r}")

    def next_text(self):
        """What the next run prints; none where a fix has restored a part."""
        if self.command == "sync":
            content = State(self.array).content
            return SYNCED if content is None else f"sync: {content.synced.count(False)} stripes synced, 0 pending\n"
        if (self.array.all_trees(), self.array.held()) == (self.trees, self.held):
            return FIXED
        return "fix: 0 blocks and 0 parities fixed, 0 findings left\n" if self.wrong_end() is None else None


def first_sync(place):
    """The first sync of five files."""
    return RefusedFixed(place([{name: name.encode() for name in "abcde"}], 1, ["content", "more"]), "sync", [])


def fix_of_two_disks(place):
    """The fix of two lost files of three, by two of three levels."""
    array = place([{"a": b"\1"}, {"a": b"\2"}, {"a": b"\4"}], 3, ["content"])
    Refused(array, "sync", [])
    sums = array.held()
    for disk in (0, 1):
        os.remove(f"{array.dir(disk)}/a")
    put(array.parities[0], b"\0" + read(array.parities[0])[1:], 10**9)
    case = RefusedFixed(array, "fix", [])
    case.sums = sums
    return case


def work_fixed(given, _, end, said):
    """Goes through the one array."""
    room = tempfile.mkdtemp(dir="/dev/shm" if os.path.isdir("/dev/shm") else None)

    def place(disks, levels, copies):
        array = FixedArray(f"{room}/array", f"{room}/aside", os.path.abspath(given.program), disks, levels, copies)
        array.library = compiled(room)
        return array
    try:
        case = {"sync": first_sync, "fix": fix_of_two_disks}[given.fixed](place)
        if refuse_each(case, case.command, end, lambda *it: said.put(it)):
            said.put(("array", ""))
    finally:
        shutil.rmtree(room)
        said.put(None)


def work(given, first, end, said):
    """Goes through every so many arrays, and puts what comes of them into the queue."""
    room = tempfile.mkdtemp(dir="/dev/shm" if os.path.isdir("/dev/shm") else None)
    try:
        library = compiled(room)
        for seed in range(first, given.first + given.arrays, given.jobs):
            if time.time() > end:
                break
            array = Array(f"{room}/array", f"{room}/aside", os.path.abspath(given.program), seed)
            array.library = library
            play(array, seed, end, lambda *it: said.put(it))
    finally:
        shutil.rmtree(room)
        said.put(None)


def main():
    words = argparse.ArgumentParser(description=__doc__.splitlines()[0])
    words.add_argument("program", nargs="?", default=os.path.join(TOP, "crates", "snapraid", "out", "snapraid"))
    words.add_argument("--minutes", type=float, default=10)
    words.add_argument("--jobs", type=int, default=os.cpu_count())
    words.add_argument("--first", type=int, default=0)
    words.add_argument("--arrays", type=int, default=10**6)
    words.add_argument("--fixed", choices=["sync", "fix"])
    given = words.parse_args()
    counts = {"4": 0, "other": 0, "array": 0, "": 0}
    if given.fixed:
        given.jobs = 1
    findings = gather(given, work_fixed if given.fixed else work, counts)
    print(f"{counts['4'] + counts['other']} refused allocations, of which {counts['4']} ended with 4, {counts['array']} arrays to their end: "
          f"{findings} findings")
    sys.exit(1 if findings else 0)


if __name__ == "__main__":
    main()
