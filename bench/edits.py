#!/usr/bin/env python3
"""Reads the log of a gate, and says which mutants were not refused by a goal of the function that they change.

usage: bench/edits.py LOG [--strict]     LOG is what `rt ci` or `rt must-fail` printed; `-` is standard input

The gate takes a mutant as refused also where the proof found a name missing that the mutant took away, and where the prover met a limit
of its own. Neither says that a contract catches the wrong body. So this ends with 1 where the log has a mutant that

- is not refused, was not tried, or cannot be applied, compiled or read,
- is refused since a name is missing, by a limit, or by a definition,
- is refused without an error, or stands in no file of the repository,

or where a crate in the log has a mutant that the log does not name.

The log gives of each mutant the first error alone. Where that is of another function than the one that the mutant changes, or of a lemma
on it, the mutant is listed. With --strict that ends with 1, too. A mutant of a constant may be refused by any function.
"""
import argparse
import os
import re
import sys

TOP = os.path.dirname(os.path.dirname(os.path.abspath(__file__)))
TOLD = re.compile(r"(?:rt: )?must-fail (\w+)/([\w.-]+\.edit): (.*)")
REFUSED = "refused, as it must be"
WHERE = re.compile(r"(?:note: )?(?:\./)?([\w+/.-]+):(\d+):\d+:\s*(.*)")
MISSING = re.compile(r"is not in scope|has no field|has no `|was not admitted|is no name|no such|cannot find|is unknown")
FUNCTION = re.compile(r"( *)(?:pub(?:\([^)]*\))? )?(?:const )?(?:unsafe )?fn (\w+)")
ANYWHERE = "a constant"


def read(name):
    with open(name, encoding="utf-8") as text:
        return text.read()


def behind_attributes(lines, number):
    """The first line from here on that is no comment and no part of an attribute: a goal of a whole item has the place of the first one."""
    inside = False
    while number < len(lines) and (inside or lines[number].lstrip().startswith(("#[", "//"))):
        inside = (inside or "#[" in lines[number]) and not lines[number].rstrip().endswith("]")
        number += 1
    return number


def function_at(lines, number):
    """The function in whose text a line stands, none where it is in no function. Lines are counted from 0."""
    number = behind_attributes(lines, number)
    for at in range(min(number, len(lines) - 1), -1, -1):
        head = FUNCTION.match(lines[at])
        if head and not any(line == f"{head[1]}}}" for line in lines[at:number]):
            return head[2]
    return None


def changed_functions(crate, edit):
    """The functions that a mutant changes; `ANYWHERE` stands for what is in no function."""
    found, name = set(), None
    for line in read(f"{TOP}/crates/{crate}/must-fail/{edit}").split("\n"):
        if line.startswith("file: "):
            name = line[len("file: "):].strip()
        elif line.startswith("old: "):
            text = read(f"{TOP}/crates/{crate}/{name}")
            # The leading blank of the text belongs to it, and it may be changed by an earlier pair.
            at = text.find(line[len("old: "):])
            if at >= 0:
                found.add(function_at(text.split("\n"), text.count("\n", 0, at)) or ANYWHERE)
    return found


def refusing(crate, path, number):
    """What a place of an error is of: a function, or a lemma of no function, or a definition."""
    parts = path.split("/")
    if parts[0] == "proofs":
        return ("function", parts[-2].lstrip("+")) if len(parts) > 2 else ("lemma", parts[-1])
    if parts[0] == "src" and os.path.isfile(f"{TOP}/crates/{crate}/{path}"):
        name = function_at(read(f"{TOP}/crates/{crate}/{path}").split("\n"), number - 1)
        return ("function", name) if name else ("what is no function in", path)
    return "definition", path


def judged(crate, edit, said):
    """What is wrong with a refusal, and whether that is only its place; nothing where it is as it should be."""
    if not said.startswith(REFUSED):
        return said[:160], False
    if not os.path.isfile(f"{TOP}/crates/{crate}/must-fail/{edit}"):
        return "no such mutant in the repository", False
    reason = said[len(REFUSED):]
    if reason.startswith(" (only because"):
        return "a proof names what it took away", False
    if reason.startswith(" (only by a limit"):
        return "the prover met a limit", False
    place = WHERE.match(reason.removeprefix(": "))
    if not place:
        return "no error is told", False
    path, number, words = place[1], int(place[2]), place[3]
    if MISSING.search(re.sub(r"`[^`]*`", "``", words)):
        return f"a name is missing in {path}: {words[:100]}", False
    kind, name = refusing(crate, path, number)
    if kind == "definition":
        return f"refused by {path}, and by no proof", False
    changed = changed_functions(crate, edit)
    if ANYWHERE in changed or (kind == "function" and name in changed):
        return None, False
    return f"changes {', '.join(sorted(changed))}, and is refused first by {kind} {name}", True


def main():
    words = argparse.ArgumentParser(description=__doc__.split("\n", 1)[0])
    words.add_argument("log")
    words.add_argument("--strict", action="store_true")
    given = words.parse_args()
    text = sys.stdin.read() if given.log == "-" else read(given.log)
    told = {(line[1], line[2]): line[3] for line in map(TOLD.match, text.split("\n")) if line}
    wrong, elsewhere = 0, 0
    for (crate, edit), said in sorted(told.items()):
        why, is_place = judged(crate, edit, said)
        if why:
            wrong, elsewhere = wrong + (not is_place), elsewhere + is_place
            print(f"{crate}/{edit}: {why}")
    for crate in sorted({crate for crate, _ in told}):
        folder = f"{TOP}/crates/{crate}/must-fail"
        for edit in sorted(os.listdir(folder) if os.path.isdir(folder) else []):
            if edit.endswith(".edit") and (crate, edit) not in told:
                wrong += 1
                print(f"{crate}/{edit}: not in the log")
    print(f"{len(told)} mutants: {wrong} without a refusal that tells, {elsewhere} refused first by another function")
    sys.exit(1 if wrong or not told or (given.strict and elsewhere) else 0)


main()
