#!/usr/bin/env python3
"""Checks the lists of docs/ADDING.md: which files have to change for a further command, option, hash or level.

usage: bench/adding.py

Each section of the page has an example that is there. Its marks are looked for in all files of the repository. Each
file with a mark that the section's tables do not name is printed, and each entry of the tables that no such file fits.
Then it ends with 1. An entry is a file, a folder, or a name with `*` or with `{this,that}`.
"""
import fnmatch
import os
import re
import subprocess
import sys

TOP = os.path.dirname(os.path.dirname(os.path.abspath(__file__)))
PAGE = "docs/ADDING.md"
# Bytes of content files and results, and what measures or describes these lists.
DATA = r"crates/\w+/data/|docs/.*\.svg$|docs/ADDING\.md$|bench/adding\.py$"
TESTS = r"crates/\w+_tests/|crates/\w+/src/tests"

# Of each example the marks that count in any file, those that count in code alone, and where none of them counts. Code
# is what crates have without comments and tests: there a number has to change, which in a test is that of some case.
EXAMPLES = {
    "A command": (r"(\b|\\n)[dD]up\b|\bDUP\b|\bdup_text\b|\bDupLemmas\b|\bmod duplicates\b", None, None),
    # What another crate's threads are called is no option.
    "An option": (r"-readers\b|OptionName::Readers\b|options\.Readers\b", r"\b[Rr]eaders\b",
                  r"must-fail/|crates/(stripe_\w+|parity_writer)/|crates/snapraid/src/locking\.rt"),
    "A hash": (r"Kind::Sha256\b|\{Md5, Sha256\}|-in-Sha256\b|MD5.*SHA-256|md5.*sha256|md5`?,? `?sha2\b"
               r"|(under|half of) SHA-256", r"\bkind( =|:) (Kind::)?Md5\b", None),
    "A level": (r"(\b|\\n)6-parity\b|\(6\|5\|4\|3\|2\)-parity|range\(2, 7\)|randint\(1, 6\)|\b1 to 6\b|from [02] to 5\b"
                r"|\b(to|for|most) six\b(?! a crate)|\bsix (levels|blocks|columns|rows|remainders)\b|\[u32; 6\]"
                r"|disks\)? \+ (6|18)\b|\bMOST_LEVELS\b",
                r"([≤≡<%/*;]|<=|[Bb]elow\(?|DigestsOf|from_one|_len 0|usize =|, (?=6>)|::<(?=6>)) ?6\b(?![.,])"
                r"|\b6 [*<]",
                r"crates/(md5_lanes|disk_model/proofs)/"),
}


def read(name):
    with open(f"{TOP}/{name}", encoding="utf-8") as text:
        return text.read()


def files():
    """All text files of the repository by their names, without data."""
    ask = ["git", "ls-files", "-z", "-co", "--exclude-standard"]
    listed, found = subprocess.run(ask, cwd=TOP, stdout=subprocess.PIPE, check=True).stdout, {}
    for name in listed.decode().split("\0"):
        if name and not re.search(DATA, name) and os.path.isfile(f"{TOP}/{name}"):
            try:
                found[name] = read(name)
            except UnicodeDecodeError:
                pass
    return found


def code_of(name, text):
    if not name.startswith("crates/") or re.match(TESTS, name):
        return ""
    return re.sub("--.*" if name.endswith(".antt") else "//.*", "", text)


def marked(texts, anywhere, in_code, leave):
    """The files that have a mark."""
    return {name for name, text in texts.items() if not (leave and re.search(leave, name))
            and (re.search(anywhere, text) or in_code and re.search(in_code, code_of(name, text)))}


def spelled_out(entry):
    """The names that an entry with braces stands for."""
    parts = re.fullmatch(r"(.*)\{(.*)\}(.*)", entry)
    return [parts[1] + it + parts[3] for it in parts[2].split(",")] if parts else [entry]


def entries(section):
    """What the first cells of the tables of a section name."""
    cells = re.findall(r"^\| (.*?) \|", section, re.M)
    return [it for cell in cells for entry in re.findall("`([^`]*)`", cell) for it in spelled_out(entry)]


def fits(name, entry):
    return name.startswith(entry) if entry.endswith("/") else fnmatch.fnmatchcase(name, entry)


def wrong():
    """What the page says otherwise than the files."""
    texts = files()
    sections = dict(re.findall(r"^## ([^:\n]*): [^\n]*\n(.*?)(?=^## |\Z)", read(PAGE), re.M | re.S))
    for title, marks in EXAMPLES.items():
        names, listed = marked(texts, *marks), entries(sections.get(title, ""))
        for name in sorted(names):
            if not any(fits(name, entry) for entry in listed):
                yield f"{title}: {name} has a mark, and is not in the list"
        for entry in listed:
            if not any(fits(name, entry) for name in names):
                yield f"{title}: {entry} is in the list, and has no mark"
        for entry in sorted({it for it in listed if listed.count(it) > 1}):
            yield f"{title}: {entry} is in the list more than once"


if __name__ == "__main__":
    found = list(wrong())
    print("\n".join(found) or f"{PAGE} is as the files are")
    sys.exit(1 if found else 0)
