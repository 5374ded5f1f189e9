#!/usr/bin/env python3
"""Kills each command at each of its calls that write, lets each of its calls on files fail, and looks at what is left.

usage: bench/crashes.py [PROGRAM] [--minutes N] [--jobs N] [--first SEED] [--arrays N] [--some N]
The built program of this repository where none is given; ten minutes, all processors, and as many arrays as fit into that time. With
--some, of each command N kills, N power cuts and 2 N failures are drawn, so that many arrays are tried in a short time.

Each array is small and random: one to four disks, one to three levels, one to three content copies. Over it come a first sync, a sync
of changes, a scrub, a list, a status and a dup, and then a scrub, a check and a fix of damage that can be mended. Each is run once as it
is.
Behind the end of each all that it wrote has to be synced, and a power cut there may take nothing.
Then, from the same start each time, it is killed before its first call that writes, before its second one, and so on; and its first call
on a file fails, with EIO and then with ENOSPC, its second one, and so on. Each kill is made twice. The second time it is a power cut:
what was written and not fsynced is there, is undone, or is other bytes. What is left is compared with what is wanted, and so is what the
next run leaves:

- a copy of the content file is as it was, or whole, and calls a stripe synced only where the levels have its sums;
- a scrub changes of a copy the marks of the stripes alone, as what it printed says, and no parity;
- a sync changes no data file; a block of a file or of a level that was right before a fix is right after it; other commands change nothing;
- a failed run ends with 0, 1 or 3, and says what failed; one that ends with 0 did all that it does;
- the next sync leaves the table and the parity of one that was not stopped, and the next fix brings back all files;
- the next scrub of all stripes prints and marks what one prints and marks that was not stopped.

It needs Linux on x86-64, Python, and a program that may be traced. The last line says how many kills and failures there were.
"""
import argparse
import errno
import multiprocessing
import os
import re
import shutil
import sys
import tempfile
import time

TOP = os.path.dirname(os.path.dirname(os.path.abspath(__file__)))
sys.path.insert(0, os.path.join(TOP, "bench"))
from crash_array import BLOCK, LOST, Array, read_content  # noqa: E402
from crash_scrub import wrong_scrub  # noqa: E402
from power_cuts import loose_at_end, power_cut  # noqa: E402
from tracing import Tamper, traced  # noqa: E402

ERRORS = {errno.EIO: "EIO", errno.ENOSPC: "ENOSPC"}
# What was asked of the system, of which file, and what the system said. It stands behind the lines of a run.
CAUSE = re.compile(r"snapraid: (?:[a-z ]+ '[^\n]*': [^\n]*|parity file '[^\n]*' was not there: [^\n]*)\n")
# A level that a check, a scrub or a fix read and that is gone. It stands behind the lines of a run that nothing is in the way of, too.
MISSING = re.compile(r"snapraid: parity file '[^\n]*' was not there: [^\n]*\n")
OPENING = "configuration or opening failed"
UNSAFE = "what was written may not have reached its disk"
VAULT = "parity or content failed"
ALWAYS = ("output failed", "/dev/null cannot be opened", "the system gave no random bytes")


class Case:
    """One command over one array as it was kept aside, and how it goes when nothing is in its way."""

    def __init__(self, array, command, words):
        self.array, self.command = array, command
        self.words = [array.program, command, "-c", f"{array.room}/conf", *words]
        array.keep()
        self.trees, self.contents, self.held = array.all_trees(), array.contents(), array.held()
        self.plain = self.run(Tamper())
        self.goal = State(array)
        self.kills = sum(call.writes for call in self.plain.calls)
        self.fails = len(self.plain.calls)

    def run(self, tamper):
        self.loaded, self.clock = self.array.contents(), int(time.time())
        return traced(self.words, tamper, self.array.room)

    def goes_well(self):
        """What is wrong with the run that nothing is in the way of."""
        if MISSING.sub("", self.plain.err) or self.plain.status not in (0, 1 if self.command in ("check", "scrub") else 0):
            return f"status {self.plain.status}, {self.plain.err!r}"
        if self.command == "sync":
            return self.wrong_after_sync()
        if self.command == "scrub":
            return wrong_scrub(self, self.plain)
        return self.wrong_end() if self.command == "fix" else self.changed()

    # What may be said.

    def said(self, outcome, tamper):
        if tamper.kind == "kill":
            return None if outcome.status == -9 else f"it was not killed: status {outcome.status}"
        err = CAUSE.sub("", outcome.err)
        if outcome.status in (0, 1):
            if err:
                return f"status {outcome.status}, and {outcome.err!r}"
            return self.told(outcome)
        if outcome.status != 3:
            return f"status {outcome.status}, {outcome.err!r}"
        line = re.fullmatch(r"snapraid: (.*)\n", err)
        if line is None or line[1] not in self.causes(outcome.hit):
            # What is said on standard error itself can't be said where that is what failed.
            return None if outcome.hit.path.endswith("/err") else f"it says {outcome.err!r}"
        return None

    def causes(self, call):
        room, found = self.array.room, {OPENING, *ALWAYS}
        name = call.path if call.path.startswith("/") else os.path.join(room, call.path)
        if self.array.own(name) or name in self.array.parities or os.path.dirname(name) == room or name == room:
            found.add(VAULT)
        disk = re.match(re.escape(room) + r"/(d[0-9])(/|$)", name)
        if disk is not None:
            found |= {f"disk '{disk[1]}' failed", UNSAFE}
        return found

    def told(self, outcome):
        """A run that ends with 0 or 1 printed what is printed where nothing fails, unless it says that a reading failed."""
        has_io = any(line.startswith("io") for line in outcome.out.splitlines())
        if has_io or (self.command == "fix" and "unrecoverable" in outcome.out):
            return None
        if outcome.out != self.plain.out and self.command != "fix":
            return f"it printed {outcome.out!r} in place of {self.plain.out!r}"
        return None

    # What may be left.

    def left(self, outcome):
        """What is wrong with what the run left."""
        wrong = self.strays()
        if wrong is None and self.command == "sync":
            wrong = self.wrong_trees() or self.wrong_copies()
            if wrong is None and outcome.status == 0:
                wrong = self.wrong_after_sync()
        elif wrong is None and self.command == "scrub":
            wrong = wrong_scrub(self, outcome)
        elif wrong is None and self.command == "fix":
            wrong = self.wrong_fixing()
            if wrong is None and outcome.status == 0 and "io" not in outcome.out:
                wrong = self.wrong_end()
        elif wrong is None:
            wrong = self.changed()
        return wrong

    def strays(self):
        array = self.array
        known = {"conf", "out", "err", "content", "content.tmp", "more", "more.tmp"} | {f"p{i}" for i in range(array.levels)}
        for name in os.listdir(array.room):
            if name not in known and not re.fullmatch("d[0-9]", name):
                return f"{name} was made"
        return None

    def changed(self):
        array = self.array
        if array.all_trees() != self.trees:
            return "a data file was changed"
        if array.contents() != self.contents or array.held() != self.held:
            return "a copy or a level was changed"
        return None

    def wrong_trees(self):
        return None if self.array.all_trees() == self.trees else "a data file was changed"

    def wrong_copies(self):
        for number, (data, before) in enumerate(zip(self.array.contents(), self.contents), 1):
            if data is None and before is not None:
                return f"copy {number} is gone"
            if data is not None:
                content = read_content(data)
                wrong = "it is not whole" if content is None else self.array.unsound(content)
                if wrong is not None:
                    return f"copy {number}: {wrong}"
        return None

    def wrong_after_sync(self):
        """What is wrong with the array once a sync ended with 0."""
        array, state = self.array, State(self.array)
        if len(set(array.contents())) != 1 or state.content is None:
            return "the copies differ"
        if any(os.path.exists(f"{name}.tmp") for name in array.copies):
            return "a draft stays"
        if not all(state.content.synced):
            return "a stripe is pending"
        length = len(state.content.synced) * BLOCK
        if any(len(held) != length for held in array.held()):
            return "a level has another length"
        for disk, records in enumerate(state.content.columns):
            if {path: (size, stamp) for path, size, stamp, _ in records} != {
                    path: (len(data), stamp) for path, (data, stamp) in array.trees[disk].items()}:
                return f"the table has other files on d{disk + 1}"
        if hasattr(self, "goal") and state.places() != self.goal.places():
            return "its table is another than that of a sync that was not stopped"
        return array.unsound(state.content)

    def wrong_fixing(self):
        """What a fix may not do at any moment: a block that was right is right, under PATH or as a lost file; all else stays."""
        array = self.array
        if array.contents() != self.contents:
            return "a copy was changed"
        for disk, (before, after) in enumerate(zip(self.trees, array.all_trees())):
            wanted = array.trees[disk]
            for path, held in before.items():
                if path.removesuffix(LOST) not in wanted and after.get(path) != held:
                    return f"d{disk + 1}:{path} was changed, and is no recorded file"
            for path, (data, _) in wanted.items():
                was = before.get(path) or before.get(path + LOST) or (b"", 0)
                found = [tree[name][0] for tree, name in ((after, path), (after, path + LOST)) if name in tree]
                for at in range(0, len(data), BLOCK):
                    block = data[at:at + BLOCK]
                    if was[0][at:at + len(block)] == block and all(it[at:at + len(block)] != block for it in found):
                        return f"block {at // BLOCK} of d{disk + 1}:{path} was right, and is not"
        for level, (was, held, right) in enumerate(zip(self.held, array.held(), self.sums)):
            for at in range(0, len(right), BLOCK):
                if was[at:at + BLOCK] == right[at:at + BLOCK] != held[at:at + BLOCK]:
                    return f"stripe {at // BLOCK} of level {level} was right, and is not"
        return None

    def wrong_end(self):
        """What is wrong with the array once a fix ended with 0."""
        array = self.array
        for disk, tree in enumerate(array.all_trees()):
            for path, held in array.trees[disk].items():
                if tree.get(path) != held:
                    return f"d{disk + 1}:{path} is not as it was synced"
        for level, (held, right) in enumerate(zip(array.held(), self.sums)):
            if held[:len(right)] != right:
                return f"level {level} is not as it was synced"
        return None

    # The next run.

    def next_run(self):
        again = self.again = self.run(Tamper())
        if (again.status, MISSING.sub("", again.err)) != (self.plain.status, ""):
            return f"then status {again.status}, {again.err!r}, {again.out[-200:]!r}"
        if self.command == "sync":
            wrong = self.wrong_after_sync()
        elif self.command == "fix":
            wrong = self.wrong_end() or self.wrong_fixing()
        elif self.command == "scrub":
            wrong = wrong_scrub(self, again) or (None if again.out == self.plain.out else f"it prints {again.out!r}")
        else:
            wrong = self.changed() or (None if again.out == self.plain.out else f"it prints {again.out!r}")
        return wrong and f"then {wrong}"

    def cut_behind_the_end(self):
        """What is wrong with what a power cut leaves behind the end of the run: all that it says has to be there."""
        self.array.bring_back()
        outcome = self.run(Tamper())
        loose = loose_at_end(outcome.calls)
        if loose:
            return f"{self.command}: at its end {loose[0]} is not synced"
        power_cut(self.array, outcome.calls)
        wrong = self.left(outcome)
        return wrong and f"{self.command}: a power cut behind its end: {wrong}"

    def attempt(self, tamper, cut):
        self.array.bring_back()
        outcome = self.run(tamper)
        if outcome.hit is None:
            return None
        if cut:
            power_cut(self.array, outcome.calls)
        wrong = self.said(outcome, tamper) or self.left(outcome) or self.next_run()
        if wrong is None:
            return ""
        kind = "power cut" if cut else tamper.kind
        what = f"{kind} {tamper.number} {ERRORS.get(tamper.error, '')} at {outcome.hit.name} {outcome.hit.path}"
        return f"{' '.join(self.words[1:2] + self.words[4:])}: {what}: {wrong}"


class State:
    def __init__(self, array):
        data = array.contents()[0]
        self.content = None if data is None else read_content(data)

    def places(self):
        if self.content is None:
            return None
        return [[(path, size, stamp, [position for position, _ in blocks]) for path, size, stamp, blocks in records]
                for records in self.content.columns], self.content.synced


def cases(array, case_of):
    """The commands over one array, each with what it begins with."""
    rnd = array.rnd
    readers = ["--readers", str(rnd.randint(1, 4))]
    sync = [*readers, "--force-empty", "--force-zero"] + (["--save-every", str(rnd.randint(1, 5))] if rnd.random() < 0.6 else [])
    yield case_of(array, "sync", sync)
    array.edit()
    yield case_of(array, "sync", sync)
    scrub = [*readers, "-p", "full"]
    yield case_of(array, "scrub", scrub)
    for command in ("list", "status", "dup"):
        yield case_of(array, command, [])
    sums = array.held()
    array.damage()
    yield case_of(array, "scrub", scrub)
    for command in ("check", "fix"):
        case = case_of(array, command, readers)
        case.sums = sums
        yield case


def tries_of(case, some, rnd):
    """All kills, power cuts and failures of a command, or some of each, as many failures as kills and power cuts together."""
    kills = [Tamper("kill", number) for number in range(1, case.kills + 1)]
    fails = [Tamper("fail", number, error) for number in range(1, case.fails + 1) for error in ERRORS]
    for tampers, cut, count in ((kills, False, some), (kills, True, some), (fails, False, 2 * some)):
        chosen = rnd.sample(tampers, min(count, len(tampers))) if some else tampers
        yield from ((tamper, cut) for tamper in chosen)


def play(array, seed, some, end, tell):
    """All tries over one array, as far as the time lasts. Each that was made is told, with what is wrong, if anything is."""
    for case in cases(array, Case):
        wrong = case.goes_well()
        if wrong is not None:
            tell("", f"seed {seed}: {case.command}, with nothing in its way: {wrong}")
            return
        wrong = case.cut_behind_the_end()
        tell("power cut", f"seed {seed}: {wrong}" if wrong else "")
        for tamper, cut in tries_of(case, some, array.rnd):
            if time.time() > end:
                return
            wrong = case.attempt(tamper, cut)
            if wrong is not None:
                tell("power cut" if cut else tamper.kind, f"seed {seed}: {wrong}" if wrong else "")
        array.bring_back()
        if case.command == "sync":
            case.run(Tamper())
    tell("array", "")


def work(given, first, end, said):
    """Goes through every so many arrays, and puts what comes of them into the queue."""
    room = tempfile.mkdtemp(dir="/dev/shm" if os.path.isdir("/dev/shm") else None)
    try:
        for seed in range(first, given.first + given.arrays, given.jobs):
            if time.time() > end:
                break
            array = Array(f"{room}/array", f"{room}/aside", os.path.abspath(given.program), seed)
            play(array, seed, given.some, end, lambda *it: said.put(it))
    finally:
        shutil.rmtree(room)
        said.put(None)


def gather(given, task, counts):
    """Has as many processes as are asked for work until the time is over, prints each finding, and answers how many there were. What they
    tell is counted by its name."""
    end, said = time.time() + 60 * given.minutes, multiprocessing.Queue()
    for job in range(given.jobs):
        multiprocessing.Process(target=task, args=(given, given.first + job, end, said)).start()
    findings, left = 0, given.jobs
    while left > 0:
        it = said.get()
        if it is None:
            left -= 1
            continue
        counts[it[0]] += 1
        if it[1]:
            findings += 1
            print(it[1], flush=True)
    return findings


def main():
    words = argparse.ArgumentParser(description=__doc__.splitlines()[0])
    words.add_argument("program", nargs="?", default=os.path.join(TOP, "crates", "snapraid", "out", "snapraid"))
    words.add_argument("--minutes", type=float, default=10)
    words.add_argument("--jobs", type=int, default=os.cpu_count())
    words.add_argument("--first", type=int, default=0)
    words.add_argument("--arrays", type=int, default=10**6)
    words.add_argument("--some", type=int, default=0)
    given = words.parse_args()
    counts = {"kill": 0, "power cut": 0, "fail": 0, "array": 0, "": 0}
    findings = gather(given, work, counts)
    print(f"{counts['kill']} kills, {counts['power cut']} power cuts and {counts['fail']} failures, {counts['array']} arrays to their end: "
          f"{findings} findings")
    sys.exit(1 if findings else 0)


if __name__ == "__main__":
    main()
