#!/usr/bin/env python3
"""Which proofs of a crate take how long: proves it from nothing on one processor, and prints its most expensive modules
and what each kind of them takes.

usage: bench/modules.py CRATE [COUNT]

`rt check` saves each module in the crate's folder when it has checked it, so the time between two of these files is that of the later one. A function
is many modules: Proof has the goals that no answer is written for, Answers the others, and Lts the steps of its code. The first module that needs an
import waits until that is loaded: the first proofs of a crate seem dear by it. The crates below are built before, where they are not.
"""
import os
import re
import shutil
import subprocess
import sys
from collections import Counter

TOP = os.path.dirname(os.path.dirname(os.path.abspath(__file__)))


def modules_of(folder):
    """The modules that a check saved, each with its seconds, and without the crate's name."""
    saved = [(os.stat(f"{place}/{file}").st_mtime_ns, file) for place, _, files in os.walk(folder) for file in files if file.endswith(".oantt")]
    saved.sort()
    names = [re.sub(r"^Rattle-\w+-|(\.decls)?\.oantt$", "", file) for _, file in saved]
    return [((now - before) / 1e9, name) for (before, _), (now, _), name in zip(saved, saved[1:], names[1:])]


def kind_of(name):
    """The last word of a module's name: a lemma's file has one of its own."""
    place, _, word = name.rpartition(".")
    return "specs and lemmas" if place in ("specs", "proofs", "") else "links" if ".TheLinks." in name else word


def main(crate, count=20):
    folder = f"{TOP}/crates/{crate}"
    shutil.rmtree(f"{folder}/out/incremental", ignore_errors=True)
    ran = subprocess.run(["rt", "check", "--jobs", "1"], cwd=folder, stdout=subprocess.PIPE, stderr=subprocess.STDOUT, text=True, check=False)
    if ran.returncode:
        sys.exit(ran.stdout)
    modules = modules_of(f"{folder}/out/incremental")
    for seconds, name in sorted(modules, reverse=True)[:count]:
        print(f"{seconds:8.2f}  {name}")
    kinds, counts = Counter(), Counter(kind_of(name) for _, name in modules)
    for seconds, name in modules:
        kinds[kind_of(name)] += seconds
    print(f"{sum(kinds.values()):8.2f}  all {len(modules)} modules, by their kinds:")
    for kind, seconds in kinds.most_common(10):
        print(f"{seconds:8.2f}  {counts[kind]} of {kind}")


if __name__ == "__main__":
    main(sys.argv[1], *map(int, sys.argv[2:]))
