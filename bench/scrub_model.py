"""A plain model of scrubs, which was written from docs/ and not from the code: which stripes are planned, what is found in them, and what
the table says of them afterwards. It serves random_scrubs.py; its marks serve crashes.py, too.
"""
from fix_model import BAD, BLOCK, FRESH, KEYWORDS, SYNCED, meta, row_sum, shown

DAY = 86_400


def candidates(table):
    """The synced stripes that hold a block."""
    return [stripe for stripe, synced in enumerate(table.synced)
            if synced and any(table.cell(d, stripe) for d in range(len(table.columns)))]


def planned(table, plan, days, now):
    """The stripes that a scrub checks: `full`, `new`, `bad`, or a number of percent."""
    may = candidates(table)
    flags = [mark for mark, _ in table.marks]
    if plan == "full":
        return may
    if plan == "new":
        return [stripe for stripe in may if flags[stripe] & FRESH]
    bad = {stripe for stripe in may if flags[stripe] & BAD}
    if plan == "bad":
        return sorted(bad)
    old = sorted((table.marks[stripe][1], stripe) for stripe in may if table.marks[stripe][1] + DAY * days <= now)
    share = -(-len(may) * int(plan) // 100)
    return sorted(bad | {stripe for _, stripe in old[:share]})


def mark_after(mark, kinds, now):
    """What is known of a stripe once a scrub found such lines in it."""
    flags, last = mark
    if not kinds:
        return SYNCED, now
    if set(kinds) == {"changed-block"}:
        return mark
    return flags | BAD, last


class Scrub:
    """What a scrub of these trees and levels finds. A tree is a map from a path to its bytes and its stamp."""

    def __init__(self, table, trees, levels, plan):
        self.table, self.trees, self.levels, self.plan = table, trees, levels, plan
        self.found = {stripe: self.cells(stripe) or self.sums(stripe) for stripe in plan}

    def cells(self, stripe):
        lines = []
        for d in range(len(self.table.columns)):
            cell = self.table.cell(d, stripe)
            if cell:
                lines += self.cell(stripe, d, *cell)
        return lines

    def cell(self, stripe, d, record, index):
        where = f"{stripe} d{d + 1}:{shown(record.path)} {index}"
        size, recorded = len(record.blocks[index]), record.hashes[index]
        seen = self.trees[d].get(record.path)
        changed = f"changed-block {where} recorded {meta(record.size, record.stamp)} found "
        if seen is None:
            return [f"{changed}nothing got 0"]
        data, stamp = seen
        block = data[index * BLOCK:index * BLOCK + size]
        if (len(data), stamp, len(block)) != (record.size, record.stamp, size):
            return [f"{changed}{meta(len(data), stamp)} got {len(block)}"]
        if self.table.hash(block) != recorded:
            return [f"silent {where} recorded {recorded.hex()} found {self.table.hash(block).hex()}"]
        return []

    def sums(self, stripe):
        """Of a stripe whose cells are all right: each level that is not the sum of their blocks."""
        cells = [self.table.cell(d, stripe) for d in range(len(self.table.columns))]
        row = [cell[0].blocks[cell[1]] if cell else b"" for cell in cells]
        return [f"wrong-parity {stripe} {KEYWORDS[level]}" for level, held in enumerate(self.levels)
                if held[stripe * BLOCK:(stripe + 1) * BLOCK] != row_sum(level, row)]

    def text(self):
        lines = [line for stripe in self.plan for line in self.found[stripe]]
        return "\n".join([*lines, f"scrub: {len(self.plan)} stripes checked, {len(lines)} findings"]) + "\n"

    def status(self):
        return int(any(self.found.values()))

    def marks(self, now):
        """What the table says of all stripes afterwards."""
        marks = list(self.table.marks)
        for stripe in self.plan:
            marks[stripe] = mark_after(marks[stripe], [line.split()[0] for line in self.found[stripe]], now)
        return marks


def status_text(table):
    """What `status` prints of a table."""
    records = [record for column in table.columns for record in column]
    synced = sum(table.synced)
    bad = [stripe for stripe, (flags, _) in enumerate(table.marks) if flags & BAD]
    oldest = min((table.marks[stripe][1] for stripe in candidates(table)), default="-")
    lines = [f"files {len(records)}", f"bytes {sum(record.size for record in records)}", f"stripes {len(table.synced)}",
             f"synced {synced}", f"pending {len(table.synced) - synced}", f"fresh {sum(bool(flags & FRESH) for flags, _ in table.marks)}",
             f"bad {len(bad)}", f"oldest {oldest}"]
    for d, column in enumerate(table.columns):
        blocks = sum(len(record.blocks) for record in column)
        lines.append(f"disk d{d + 1} files {len(column)} blocks {blocks} free {len(table.synced) - blocks}")
    return "\n".join(lines + [f"bad stripe {stripe}" for stripe in bad]) + "\n"
