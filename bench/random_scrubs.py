#!/usr/bin/env python3
"""Compares scrubs of small random arrays with the model in scrub_model.py.

usage: bench/random_scrubs.py [RUNS] [SEED] [PROGRAM]     200 runs of the built program of this repository where nothing is given
Each run makes an array as random_fixes.py does, with two content files, whose stripes were checked at many times, and some of which are
bad or fresh. It damages files and levels, and scrubs by a plan of each kind, for any number of readers. What is printed, the status, and
each byte of content, parity and files is compared with the model, and so is what `status` says then. Then `fix -e` mends what the bad
stripes have, by the model of fixes, and a scrub of the bad stripes clears the marks of those that are right.
"""
import copy
import os
import random
import shutil
import sys
import tempfile
import time

TOP = os.path.dirname(os.path.dirname(os.path.abspath(__file__)))
sys.path.insert(0, os.path.join(TOP, "bench"))
from fix_model import BAD, FRESH, SYNCED  # noqa: E402
from random_fixes import Array, compare, play_all, same_tree  # noqa: E402
from scrub_model import DAY, Scrub, planned, status_text  # noqa: E402

COPIES = ("content", "more")


class ScrubbedArray(Array):
    """An array with a second content file, whose stripes were checked at many times."""

    def __init__(self, room, program, random_number):
        super().__init__(room, program, random_number)
        with open(os.path.join(room, "conf"), "a", encoding="ascii") as out:
            out.write(f"content {room}/{COPIES[1]}\n")

    def settle(self, table):
        rnd, now = self.rnd, int(time.time())
        # None is so near to a limit in days that the clock matters.
        times = [0, 1, 100, now - 40 * DAY - 5000, now - 20 * DAY - 5000, now - 9 * DAY - 5000, now - 5000, now + DAY, 2**64 - 1]
        some = rnd.sample(times, rnd.randint(1, len(times)))
        table.marks = [(SYNCED + rnd.choice([0, BAD, FRESH, BAD + FRESH]), rnd.choice(some)) if synced else (0, 0)
                       for synced in table.synced]
        super().settle(table)
        shutil.copy(f"{self.room}/{COPIES[0]}", f"{self.room}/{COPIES[1]}")

    def contents(self):
        found = []
        for name in COPIES:
            with open(f"{self.room}/{name}", "rb") as held:
                found.append(held.read())
        return found

    def rot(self):
        """Some files get other bytes, and keep their size and stamp."""
        for d in range(self.disks):
            tree = self.tree(d)
            for path, (data, stamp) in tree.items():
                if data and self.rnd.random() < 0.3:
                    other = bytearray(data)
                    other[self.rnd.randrange(len(other))] ^= self.rnd.randint(1, 255)
                    tree[path] = (bytes(other), stamp)
            self.replace(d, tree)
        for i in range(self.count):
            if self.rnd.random() < 0.2:
                self.damage_level(i)

    def scrub_words(self):
        rnd, words = self.rnd, []
        plan = rnd.choice(["full", "new", "bad", None, str(rnd.randint(0, 100)), "100", "0"])
        days = rnd.choice([None, 0, 1, 15, 30, 36_500])
        if plan is not None:
            words += [rnd.choice(["-p", "--plan"]), plan]
        if days is not None:
            words += [rnd.choice(["-o", "--older-than"]), str(days)]
        return plan or "8", 10 if days is None else days, words


def scrubbed(array, table, plan, days, words):
    """What of a scrub differs from the model, if anything does. The table gets the marks of the scrub."""
    trees, levels = [array.tree(d) for d in range(array.disks)], [array.level(i) for i in range(array.count)]
    before, began = array.contents(), int(time.time())
    model = Scrub(table, trees, levels, planned(table, plan, days, began))
    status, out, err = array.run("scrub", *words, "--readers", str(array.rnd.randint(1, 16)))
    if (status, out) != (model.status(), model.text()) or not array.tells_missing(err, out):
        return f"scrub {words}: {status}, {err!r}\n{out}--- wanted {model.status()}\n{model.text()}"
    if not all(same_tree(tree, array.tree(d)) for d, tree in enumerate(trees)):
        return f"scrub {words}: another tree"
    if levels != [array.level(i) for i in range(array.count)]:
        return f"scrub {words}: another level"
    if not model.plan:
        return None if array.contents() == before else f"scrub {words}: nothing was planned, and content was written"
    for now in range(began, int(time.time()) + 1):
        after = copy.copy(table)
        after.marks = model.marks(now)
        if array.contents() == [after.content()] * len(COPIES):
            table.marks = after.marks
            return None
    return f"scrub {words}: another content"


def states(array, table):
    bad = any(flags & BAD for flags, _ in table.marks)
    said = array.run("status")
    return None if said == (int(bad), status_text(table), "") else f"status: {said}\n--- wanted {int(bad)}\n{status_text(table)}"


def story(array, table):
    """A scrub by any plan, what status says, and a fix of what is bad; then a scrub of the bad stripes."""
    plan, days, words = array.scrub_words()
    wrong = scrubbed(array, table, plan, days, words) or states(array, table)
    wrong = wrong or scrubbed(array, table, "full", 10, ["-p", "full"]) or states(array, table)
    wrong = wrong or compare(array, table, [("-e",)], "check") or compare(array, table, [("-e",)], "fix")
    return wrong or scrubbed(array, table, "bad", 10, ["-p", "bad"]) or states(array, table)


def play(program, seed):
    room = tempfile.mkdtemp(dir="/dev/shm" if os.path.isdir("/dev/shm") else None)
    try:
        array = ScrubbedArray(room, program, random.Random(seed))
        array.fill()
        table = array.table()
        array.settle(table)
        wrong = story(array, table)
        for damage in (array.rot, array.damage):
            if wrong is None:
                damage()
                wrong = story(array, table)
        return wrong
    finally:
        shutil.rmtree(room)


def main():
    play_all(play, "each scrubbed whole, rotten and damaged: scrubs, marks and fixes as the model says")


if __name__ == "__main__":
    main()
