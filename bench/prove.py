#!/usr/bin/env python3
"""Proves a program and all crates that it stands on, and builds it, on all processors, and says how far it is.

usage: bench/prove.py PROGRAM [WORD ..]     for ./demo: bench/prove.py snapraid exercise 3

This is the gate of these crates alone, in a copy of them without mutants and most tests; the program is copied back.
What is proved is kept, so a second run takes half a minute, and the whole gate need not prove it again. Where there is
more to prove, the program is run unproved with these words meanwhile, so that it is seen at work within two minutes.
How long the rest takes is estimated by the table of costs in bench/README.md.
"""
import os
import re
import shutil
import subprocess
import sys
import tempfile
import threading
import time

TOP = os.path.dirname(os.path.dirname(os.path.abspath(__file__)))
# Where the program was built before, what is kept is through by then.
PATIENCE = 15
MINUTE = 60
TELLS_WHY = re.compile(r"error|no proof|stays open|NOT PROVED|FAILED|passed, ")


def crates_below(top):
    """The crates that `top` stands on, and it, each with its line of crates.txt, in the order of these lines."""
    with open(f"{TOP}/crates.txt", encoding="utf-8") as text:
        lines = {line[1]: line[0] for line in re.finditer(r"^(\w+)[^#\n:]*:.*$", text.read(), re.M)}
    found, left = set(), [top]
    while left:
        name = left.pop()
        if name not in found:
            found.add(name)
            left += [it for it in re.findall(r"\w+", lines[name].partition(":")[2]) if it in lines]
    return {name: line for name, line in lines.items() if name in found}


def costs(names):
    """The processor seconds that the proofs of each crate took when they were measured last."""
    with open(f"{TOP}/bench/README.md", encoding="utf-8") as text:
        table = dict(re.findall(r"^\| (\w+)(?:, its tests)? \| (\d+) \|", text.read(), re.M))
    return {name: int(table.get(name, 60)) for name in names}


def left_out(folder, names):
    """What was made, mutants, and tests that stand in files of their own."""
    return ({"tests", "tests.rt"} if folder.endswith(("/src", "/proofs")) else {"out", "must-fail"}) & set(names)


def copy_crates(lines, to):
    """A repository of these crates, without their mutants and most of their tests."""
    for name in lines:
        crate = f"{to}/crates/{name}"
        shutil.copytree(f"{TOP}/crates/{name}", crate, ignore=left_out)
        for top in filter(os.path.exists, (f"{crate}/src/lib.rt", f"{crate}/src/main.rt")):
            with open(top, encoding="utf-8") as text:
                kept = text.read().replace("#[cfg(test)]\nmod tests;\n", "")
            with open(top, "w", encoding="utf-8") as text:
                text.write(re.sub("\n{3,}", "\n\n", kept).rstrip("\n") + "\n")
    shutil.copy(f"{TOP}/HANDLES", to)
    with open(f"{to}/crates.txt", "w", encoding="utf-8") as text:
        text.writelines(f"{line}\n" for line in lines.values())
    os.mkdir(f"{to}/.git")


class Proving(threading.Thread):
    """Proves in a thread of its own, and knows what is done."""

    def __init__(self, program, room):
        super().__init__(daemon=True)
        self.program, self.room = program, room
        self.below = crates_below(program)
        self.cost = costs(self.below)
        self.done, self.said = [], []
        # Until all is proved and the program stands there: whatever ends this thread before is a failure.
        self.failed = True
        self.begun = self.latest = time.time()

    def run(self):
        copy_crates(self.below, self.room)
        # What a user waits for, the run of the unproved program, goes before.
        ran = subprocess.Popen(["nice", "rt", "ci"], cwd=self.room, stdout=subprocess.PIPE, stderr=subprocess.STDOUT, text=True)
        for line in ran.stdout:
            self.said.append(line)
            crate = re.match(r"rt: (\w+) (proved$|is kept)", line)
            if crate and crate[1] in self.below:
                self.done.append(crate[1])
                self.latest = time.time()
        if ran.wait() == 0:
            out = f"{TOP}/crates/{self.program}/out"
            os.makedirs(out, exist_ok=True)
            shutil.copy(f"{self.room}/crates/{self.program}/out/{self.program}", out)
            self.failed = False

    def how_far(self):
        """How many crates are proved, the last of them, and how many minutes are left, by what is done so far."""
        whole, done = sum(self.cost.values()), sum(self.cost[name] for name in self.done)
        # Before much is done, the figures of the table serve, for four processors.
        each = (self.latest - self.begun) / done if done > whole / 20 else 0.4
        minutes = ((whole - done) * each - (time.time() - self.latest)) / MINUTE
        left = f"about {max(1, round(minutes))} min left"
        return f"[{len(self.done)} of {len(self.below)}] {', '.join(self.done[-3:])} proved; {left}" if self.done else left


def show_unproved(proving, words):
    """Runs the program unproved, and stops that where the proofs are there before it."""
    print(f"UNPROVED, and slow, within two minutes: {proving.program} {' '.join(words)}", flush=True)
    ran = subprocess.Popen(["rt", "try", "--", *words], cwd=f"{TOP}/crates/{proving.program}", stdout=subprocess.PIPE,
                           stderr=subprocess.DEVNULL, text=True)
    said = []
    reading = threading.Thread(target=lambda: said.append(ran.stdout.read()))
    reading.start()
    while reading.is_alive() and proving.is_alive():
        reading.join(1)
    if reading.is_alive():
        ran.terminate()
    reading.join()
    if ran.wait() > 0:
        said.append(f"failed with status {ran.returncode}\n")
    for line in "".join(said).splitlines():
        print(f"    unproved: {line}", flush=True)


def prove(program, words, room):
    proving = Proving(program, room)
    print(f"proving {len(proving.below)} crates; those with cached proofs take a second each", flush=True)
    proving.start()
    if os.path.exists(f"{TOP}/crates/{program}/out/{program}"):
        proving.join(PATIENCE)
    if words and proving.is_alive():
        minutes = sum(proving.cost.values()) // MINUTE
        print(f"the proofs took {minutes} processor minutes when they were measured; meanwhile this is the program as it stands:", flush=True)
        show_unproved(proving, words)
    while proving.is_alive():
        print(proving.how_far(), flush=True)
        proving.join(MINUTE)
    if proving.failed:
        sys.exit("".join([*filter(TELLS_WHY.search, proving.said)] or proving.said[-20:]) + "not all is proved")
    print(f"all {len(proving.below)} crates are proved, and the program is built", flush=True)


if __name__ == "__main__":
    with tempfile.TemporaryDirectory(prefix="prove-") as place:
        prove(sys.argv[1], sys.argv[2:], place)
