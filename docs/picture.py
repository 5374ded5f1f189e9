#!/usr/bin/env python3
"""Draws what a stop in a sync leaves, for the README.

usage: docs/picture.py >docs/array.svg

Disks and levels are columns, stripes are rows. The two columns behind them say what the old and the new content file
call each stripe.
"""

WIDTH, HEIGHT = 860, 430
TOP, ROW, BOX = 92, 40, 32
DISKS = {"d1": 96, "d2": 170, "d3": 244}
LEVELS = {"parity": 346, "2-parity": 430}
CONTENTS = {"old": 540, "new": 622}
CAPTION = 708

# Of each state its fill, its text, what the levels hold, and what is said of it.
STATES = {
    "synced": ("#cfe8d5", "#14532d", "sums", "on the disks"),
    "writing": ("#ffe0b3", "#7c2d12", "any bytes", "being written"),
    "pending": ("#e2e4e9", "#374151", "as before", "not reached"),
}
ROWS = ["synced", "synced", "writing", "writing", "pending", "pending"]
OLD = ["synced", "synced", "pending", "pending", "pending", "pending"]
NEW = ["synced", "synced", "synced", "synced", "pending", "pending"]
EMPTY = {(5, "d2")}

LINES = [
    "A stop while stripes 2 and 3 are written: each copy of the content file is the old one.",
    "Their sums are on the disks before the new one is saved. A stop then: each copy is old or new, and whole.",
    "So no copy calls a stripe synced whose sums are not there, and the next sync resumes.",
]


def text(x, y, words, **style):
    """Centred and dark, unless the style says otherwise."""
    said = "".join(f' {name.replace("_", "-")}="{value}"' for name, value in style.items())
    return f'<text x="{x}" y="{y}"{said}>{words}</text>'


def box(x, y, width, fill, ink, words):
    return (f'<rect x="{x}" y="{y}" width="{width}" height="{BOX}" rx="4" fill="{fill}" stroke="{ink}"/>'
            + text(x + width // 2, y + 21, words, fill=ink, font_size=12))


def head(columns, width, title):
    first, last = min(columns.values()), max(columns.values()) + width
    yield text((first + last) // 2, TOP - 34, title, font_weight="bold")
    for name, x in columns.items():
        yield text(x + width // 2, TOP - 12, name)


def stripe(number):
    y = TOP + ROW * number
    fill, ink, held, said = STATES[ROWS[number]]
    yield text(84, y + 21, f"stripe {number}", text_anchor="end")
    for name, x in DISKS.items():
        if (number, name) not in EMPTY:
            yield box(x, y, 66, "#dbeafe", "#1e3a8a", "block")
    for x in LEVELS.values():
        yield box(x, y, 76, fill, ink, held)
    for x, states in zip(CONTENTS.values(), (OLD, NEW)):
        fill_of, ink_of = STATES[states[number]][:2]
        yield box(x, y, 74, fill_of, ink_of, states[number])
    yield text(CAPTION, y + 21, said, fill=ink, text_anchor="start")


def drawing():
    yield (f'<svg xmlns="http://www.w3.org/2000/svg" viewBox="0 0 {WIDTH} {HEIGHT}" width="{WIDTH}" height="{HEIGHT}" '
           'font-family="sans-serif" font-size="13" text-anchor="middle" fill="#111827" role="img">')
    yield "<title>What a stop in a sync leaves</title>"
    # A ground of its own, so that it reads the same on light and dark pages.
    yield f'<rect width="{WIDTH}" height="{HEIGHT}" rx="8" fill="#ffffff" stroke="#9ca3af"/>'
    yield text(20, 28, "What a stop in a sync leaves", font_size=16, text_anchor="start", font_weight="bold")
    yield from head(DISKS, 66, "data disks")
    yield from head(LEVELS, 76, "levels")
    yield from head(CONTENTS, 74, "content file")
    for number in range(len(ROWS)):
        yield from stripe(number)
    for number, line in enumerate(LINES):
        yield text(20, TOP + ROW * len(ROWS) + 30 + 24 * number, line, text_anchor="start")
    yield "</svg>"


print("\n".join(drawing()))
