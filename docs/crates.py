#!/usr/bin/env python3
"""Draws the crates as crates.txt has them, for ARCHITECTURE.

usage: docs/crates.py >docs/crates.svg      draws them
       docs/crates.py --check               says what picture, page or groups have otherwise; then it ends with 1

A crate stands above those that it stands on. A line that follows from two others is not drawn. Tests that stand in a
crate beside theirs are a mark on the box of that crate.
"""
import functools
import os
import re
import sys

TOP = os.path.dirname(os.path.dirname(os.path.abspath(__file__)))
DOUBLES = {"disk_calm", "disk_memory", "snap_top_memory"}
# Of each group its fill, its ink, and what it is.
GROUPS = {
    "program": ("#dbeafe", "#1e3a8a", "the program"),
    "doubles": ("#ffe0b3", "#7c2d12", "doubles: objects and arrays in memory"),
    "instances": ("#cfe8d5", "#14532d", "instances: arrays that meet what laws suppose"),
    "tests": ("#e2e4e9", "#374151", "tests, on the box of their crate if there is one"),
}
# What stands above each group in crates.txt, and in the page.
HEADS = {"The program": "program", "Doubles": "doubles", "Instances": "instances", "Tests": "tests"}
ROW, HIGH, GAP, LETTER, MARK, EDGE = 62, 26, 18, 6.7, 54, 24


def read(name):
    with open(f"{TOP}/{name}", encoding="utf-8") as text:
        return text.read()


LINES = {it[1]: it[2].split() for it in re.finditer(r"^(\w+):(.*)$", read("crates.txt"), re.M)}


def crate_of_tests(name):
    """The crate that a crate of tests is for, if there is one: that whose name is the longest beginning of its own."""
    before = [it for it in LINES if not it.endswith("_tests") and name.startswith(it + "_")]
    return max(before, key=len, default=None)


KIT = {it for below in LINES.values() for it in below} - set(LINES)
TESTS = {it: crate_of_tests(it) for it in LINES if it.endswith("_tests")}
BOXES = [it for it in LINES if not TESTS.get(it)]
BELOW = {it: [other for other in LINES[it] if other in LINES] for it in LINES}


@functools.cache
def all_below(crate):
    return set(BELOW[crate]).union(*map(all_below, BELOW[crate]))


def group_of(crate):
    if crate in TESTS:
        return "tests"
    if crate in DOUBLES:
        return "doubles"
    return "program" if crate in {"snapraid", *all_below("snapraid")} else "instances"


def stands_on(crate):
    """The crates below it, without those that stand below one of these."""
    return [it for it in BELOW[crate] if not any(it in all_below(other) for other in BELOW[crate])]


@functools.cache
def row_of(crate):
    """Just below the lowest of the crates that stand on it."""
    above = [row_of(it) - 1 for it in BOXES if crate in BELOW[it]]
    return min(above) if above else height(crate)


@functools.cache
def height(crate):
    return 1 + max(map(height, BELOW[crate]), default=-1)


def tests_of(crate):
    return sum(of == crate for of in TESTS.values())


def width(node):
    if not isinstance(node, str):
        return 2
    return LETTER * len(node) + 16 + (MARK if tests_of(node) else 0)


def lines_and_rows():
    """Each line as the nodes that it goes through, a bend in each row between, and the nodes of each row."""
    rows = [[] for _ in range(1 + max(map(row_of, BOXES)))]
    for crate in BOXES:
        rows[row_of(crate)].append(crate)
    lines = []
    for crate in BOXES:
        for below in stands_on(crate):
            bends = [(crate, below, row) for row in range(row_of(crate) - 1, row_of(below), -1)]
            for bend in bends:
                rows[bend[2]].append(bend)
            lines.append([crate, *bends, below])
    return lines, rows


def spread(nodes, wanted):
    """The places of nodes in a row, in their order, without overlap, and as near as can be to the wanted ones."""
    offset, blocks = 0, []
    for node in nodes:
        offset += width(node) / 2
        blocks.append([wanted[node] - offset, 1])
        offset += width(node) / 2 + GAP
        while len(blocks) > 1 and blocks[-2][0] > blocks[-1][0]:
            (one, many), (other, more) = blocks[-2:]
            blocks[-2:] = [[(one * many + other * more) / (many + more), many + more]]
    places, offset = {}, 0
    bases = [base for base, count in blocks for _ in range(count)]
    for node, base in zip(nodes, bases):
        places[node] = base + offset + width(node) / 2
        offset += width(node) + GAP
    return places


def placed(lines, rows):
    """Where the middle of each node is: rows are ordered by the nodes beside, up and down, then spread."""
    beside = {node: [] for row in rows for node in row}
    for line in lines:
        for one, other in zip(line, line[1:]):
            beside[one].append(other)
            beside[other].append(one)
    at = {}
    for row in rows:
        at.update(spread(row, dict.fromkeys(row, 400)))
    for turn in range(60):
        for row in rows if turn % 2 else rows[::-1]:
            wanted = {node: sum(at[it] for it in beside[node]) / len(beside[node]) for node in row}
            if turn < 40:
                row.sort(key=wanted.get)
            at.update(spread(row, wanted))
    left = min(at[node] - width(node) / 2 for node in at)
    return {node: at[node] - left + EDGE for node in at}


def drawn_line(line, at, top):
    row = {node: row_of(node) if isinstance(node, str) else node[2] for node in line}
    x, y = at[line[0]], top - ROW * row[line[0]] + HIGH
    path = f"M{x:.0f} {y}"
    for node in line[1:]:
        to, down = at[node], top - ROW * row[node]
        path += f"C{x:.0f} {y + 18} {to:.0f} {down - 18} {to:.0f} {down}"
        x, y = to, down
        if not isinstance(node, str):
            y += HIGH
            path += f"V{y}"
    return path


def box(crate, at, top):
    """The box of a crate, and its name."""
    x, y, wide = at[crate] - width(crate) / 2, top - ROW * row_of(crate), width(crate)
    name = wide - (MARK if tests_of(crate) else 0)
    return (f'<rect x="{x:.0f}" y="{y}" width="{wide:.0f}" height="{HIGH}" rx="4"/>',
            f'<text x="{x + name / 2:.0f}" y="{y + 17}">{crate}</text>')


def mark(crate, at, top):
    """The right end of a box, which says that there are tests beside the crate."""
    x, y, count = at[crate] + width(crate) / 2 - MARK, top - ROW * row_of(crate), tests_of(crate)
    return (f'<path d="M{x:.0f} {y}h{MARK - 4}q4 0 4 4v{HIGH - 8}q0 4 -4 4h-{MARK - 4}z"/>',
            f'<text x="{x + MARK / 2:.0f}" y="{y + 17}">{"tests" if count == 1 else f"{count} tests"}</text>')


def drawing():
    lines, rows = lines_and_rows()
    at = placed(lines, rows)
    wide = round(max(at[node] + width(node) / 2 for node in at)) + EDGE
    top = 84 + ROW * (len(rows) - 1)
    yield (f'<svg xmlns="http://www.w3.org/2000/svg" viewBox="0 0 {wide} {top + 50}" width="{wide}" '
           f'height="{top + 50}" font-family="monospace" font-size="11" text-anchor="middle" role="img">')
    yield "<title>The crates, each above those that it stands on</title>"
    # A ground of its own, so that it reads the same on light and dark pages.
    yield f'<rect width="{wide}" height="{top + 50}" rx="8" fill="#fff" stroke="#9ca3af"/>'
    yield '<g fill="none" stroke="#6b7280">'
    yield f'<path d="{"".join(drawn_line(line, at, top) for line in lines)}"/></g>'
    for number, (group, (fill, ink, says)) in enumerate(GROUPS.items()):
        y = 16 + 20 * number
        drawn = [(f'<rect x="{EDGE}" y="{y}" width="22" height="14" rx="3"/>',
                  f'<text x="{EDGE + 30}" y="{y + 11}" text-anchor="start">{says}</text>')]
        drawn += [box(crate, at, top) for crate in BOXES if group_of(crate) == group]
        drawn += [mark(crate, at, top) for crate in BOXES if group == "tests" and tests_of(crate)]
        shapes, texts = map("".join, zip(*drawn))
        yield f'<g fill="{fill}" stroke="{ink}">{shapes}</g><g fill="{ink}">{texts}</g>'
    yield "</svg>"


def wrong_rows():
    """What the table of crates in ARCHITECTURE says otherwise than crates.txt."""
    rows = re.findall(r"^\| (\w+) \| (.*?) \| (.*?) \| .* \|$", read("docs/ARCHITECTURE.md"), re.M)
    rows = [row for row in rows if row[0] in LINES]
    for crate in BOXES:
        times = sum(row[0] == crate for row in rows)
        if times != 1:
            yield f"the table names {crate} {times} times"
    for crate, does, below in rows:
        if not does:
            yield f"the table does not say what {crate} does"
        stands = set(LINES[crate])
        said = {it for it in re.findall(r"\w+", below) if it in LINES or it in KIT}
        # A row may end with 'what these stand on'.
        more = set().union(*(all_below(it) for it in said & set(LINES))) if " stand" in below else set()
        if not said <= stands <= said | more:
            yield f"{crate} stands on {' '.join(LINES[crate])}, and the table says: {below}"


def wrong_groups(name, head, crate):
    """The crates that a file has in another group than their own: by what its heads of groups, and its crates look like."""
    group = None
    for line in read(name).split("\n"):
        begun, found = re.match(head, line), re.match(crate, line)
        group = HEADS.get(begun[1]) if begun else group
        if found and found[1] in LINES and group_of(found[1]) != group:
            yield f"{name} has {found[1]} among {group}, and it is one of {group_of(found[1])}"


def check():
    wrong = [*wrong_rows(), *wrong_groups("crates.txt", r"# ---- ([\w ]*)", r"(\w+):"),
             *wrong_groups("docs/ARCHITECTURE.md", r"\*\*([\w ]*)\.\*\*", r"\| (\w+) \|")]
    if read("docs/crates.svg") != picture():
        wrong.append("docs/crates.svg is not what docs/crates.py draws")
    print("\n".join(wrong) or "picture and page are as crates.txt has it")
    return 1 if wrong else 0


def picture():
    return "\n".join(drawing()) + "\n"


if sys.argv[1:] == ["--check"]:
    sys.exit(check())
sys.stdout.write(picture())
