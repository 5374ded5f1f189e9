"""The two configurations, the old program's and this one's, and the reasons to refuse."""
import os
import re

from snapraid_array import is_record_path, pattern, shown

MOST_KIB = 4096
LEVELS = ["parity", "2-parity", "3-parity", "4-parity", "5-parity", "6-parity"]
NAME = re.compile(r"[A-Za-z0-9_.-]{1,64}")
MOST_TOLD = 10


class Refused(Exception):
    """Why nothing more can be said of the array."""


class Reasons:
    """Why the array is not taken over, a line each, and the lines that the new configuration should have."""

    def __init__(self):
        self.lines, self.suggested = [], []

    def add(self, text):
        self.lines.append(text)

    def each(self, names, text):
        """A line for each of these names, or for the first of them."""
        for name in names[:MOST_TOLD]:
            self.add(f"{shown(name)}: {text}")
        if len(names) > MOST_TOLD:
            self.add(f"{len(names) - MOST_TOLD} more: {text}")


# Configurations

class Configuration:
    """What a configuration names: the files of each level, content files, data folders, and rules."""

    def __init__(self, name):
        self.name, self.levels, self.contents, self.data, self.rules = name, {}, [], [], []
        self.kib, self.hidden_too = 256, True

    def own(self):
        """The array's own files, by their full names."""
        files = [file for level in self.levels.values() for file in level] + self.contents
        return {os.fsencode(file) for file in files + [content + ".tmp" for content in self.contents]}


def lines_of(name):
    """The lines that say something, each with its number, keyword and argument."""
    with open(name, "rb") as file:
        for number, line in enumerate(file.read().split(b"\n"), 1):
            try:
                text = line.decode().removesuffix("\r").strip(" \t")
            except UnicodeDecodeError:
                raise Refused(f"{name}:{number}: it is not UTF-8") from None
            if text and not text.startswith("#"):
                keyword, argument = re.fullmatch(r"([^ \t]*)[ \t]*(.*)", text, re.DOTALL).groups()
                yield number, keyword, argument


def one_slash(text):
    return re.sub("/+", "/", text)


def folder(text):
    return one_slash(text).removesuffix("/") or "/"


def old_configuration(name):
    """What a configuration of SnapRAID says of parity, content and data. All else has no part in this."""
    old = Configuration(name)
    other = {"1-parity": 0, "q-parity": 1, "r-parity": 2}
    for number, keyword, argument in lines_of(name):
        if keyword == "z-parity":
            raise Refused(f"{name}:{number}: parity of the third level is not that of this program with 'z-parity'")
        level = LEVELS.index(keyword) if keyword in LEVELS else other.get(keyword)
        if level is not None:
            old.levels[level] = [file.strip(" \t") for file in argument.split(",")]
        elif keyword == "content":
            old.contents.append(argument)
        elif keyword in ("data", "disk"):
            old.data.append(data_of(f"{name}:{number}", argument))
        elif keyword in ("blocksize", "block_size"):
            old.kib = int(argument) if argument.isdecimal() else 0
    if not old.contents or sorted(old.levels) != list(range(len(old.levels))) or not old.levels:
        raise Refused(f"{name}: it names no content file, or not all levels of parity")
    return old


def data_of(where, argument):
    words = re.split(r"[ \t]+", argument, maxsplit=1)
    if len(words) != 2:
        raise Refused(f"{where}: bad value")
    return words[0], folder(words[1])


def new_configuration(name):
    """A configuration of this program."""
    new, seen = Configuration(name), set()
    for number, keyword, argument in lines_of(name):
        where = f"{name}:{number}"
        if keyword in seen and keyword in (*LEVELS, "blocksize"):
            raise Refused(f"{where}: repeated")
        seen.add(keyword)
        if keyword in LEVELS:
            new.levels[LEVELS.index(keyword)] = [one_slash(file) for file in argument.split(",")]
        elif keyword == "content":
            new.contents.append(one_slash(argument))
        elif keyword in ("data", "disk"):
            new.data.append(data_of(where, argument))
        elif keyword in ("exclude", "include"):
            new.rules.append((keyword == "include", rule(where, argument)))
        elif keyword == "nohidden":
            new.hidden_too = False
        elif keyword == "blocksize":
            new.kib = int(argument) if re.fullmatch("[0-9]{1,9}", argument) else 0
        elif keyword not in ("hashsize", "autosave", "splitsize", "pool", "share", "smartctl"):
            raise Refused(f"{where}: unknown keyword")
    check_configuration(new)
    return new


def check_configuration(new):
    names = [name for name, _ in new.data]
    if not new.levels or sorted(new.levels) != list(range(len(new.levels))):
        raise Refused(f"{new.name}: missing parity")
    if not 1 <= len(new.contents) <= 64 or len(set(new.contents)) != len(new.contents):
        raise Refused(f"{new.name}: no content file, more than 64, or one of them twice")
    if not 1 <= len(names) <= 251 or len(set(names)) != len(names):
        raise Refused(f"{new.name}: no disk, more than 251, or one name twice")
    if not all(NAME.fullmatch(name) and name not in LEVELS for name in names):
        raise Refused(f"{new.name}: the name of a disk has 1 to 64 ASCII letters, digits, dots, dashes or underscores")
    if not 1 <= new.kib <= MOST_KIB:
        raise Refused(f"{new.name}: blocksize is 1 to {MOST_KIB}")


def rule(where, text):
    """What a pattern matches, from the front of a path."""
    if text in ("", "/") or re.search(r"\[|\*\*|//", text) or ("/" in text[1:-1] and not text.startswith("/")):
        raise Refused(f"{where}: bad pattern")
    return re.compile(pattern(text), re.DOTALL)


def keeps(new, path):
    """Whether a sync keeps a file, as far as its path says."""
    if not is_record_path(path) or not new.hidden_too and (path.startswith(b".") or b"/." in path):
        return False
    text = path.decode()
    for includes, matches in new.rules:
        if matches.match(text):
            return includes
    return not new.rules or not new.rules[-1][0]
