"""What snapraid-changes and snapraid-preflight know of an array: its configuration, which files of a folder are kept,
and how the program is asked. docs/FORMATS.md has the rules."""
import functools
import os
import re
import shutil
import subprocess

LONGEST = 4096  # bytes of a path that a listing goes on with
LONGEST_RECORD = 4082
LEVELS = ["parity"] + ["%d-parity" % n for n in range(2, 7)]


class Failure(Exception):
    """The program, or a file or folder, failed."""


def program():
    """The program: SNAPRAID if it is set. `snapraid` may be the name of another one."""
    return os.environ.get("SNAPRAID") or shutil.which("hadlixu") or "snapraid"


def ask(*words, statuses=(0,)):
    """What the program prints when it is called with these words."""
    try:
        said = subprocess.run([program(), *words], stdout=subprocess.PIPE, check=False)
    except OSError as error:
        raise Failure("%s: %s" % (program(), error.strerror)) from error
    if said.returncode not in statuses:
        raise Failure("'%s %s' ended with %d" % (program(), " ".join(words), said.returncode))
    return said.stdout


def file_name(text):
    return re.sub("/+", "/", text).encode()


class Configuration:
    """A configuration that the program accepts."""

    def __init__(self, name):
        self.levels, self.contents, self.disks, self.rules = {}, [], {}, []
        self.nohidden = False
        self.numbers = {"blocksize": 256, "autosave": 0, "splitsize": 16000}
        try:
            with open(name, "rb") as file:
                text = file.read()
        except OSError as error:
            raise Failure("%s: %s" % (name, error.strerror)) from error
        for line in text.split(b"\n"):
            line = line.removesuffix(b"\r").strip(b" \t")
            if line and not line.startswith(b"#"):
                self._take(*re.match("([^ \t]*)[ \t]*(.*)", line.decode("utf-8", "replace"), re.DOTALL).groups())

    @property
    def block(self):
        """The size of a block, in bytes."""
        return 1024 * self.numbers["blocksize"]

    @property
    def full(self):
        """How many bytes each part of a level but the last holds."""
        return self.numbers["splitsize"] * 10**9 // self.block * self.block

    def _take(self, keyword, value):
        if keyword in LEVELS:
            self.levels[keyword] = [file_name(file) for file in value.split(",")]
        elif keyword == "content":
            self.contents.append(file_name(value))
        elif keyword in ("data", "disk"):
            disk, folder = re.match("([^ \t]*)[ \t]*(.*)", value, re.DOTALL).groups()
            folder = file_name(folder)
            self.disks[disk.encode()] = folder if folder == b"/" else folder.removesuffix(b"/")
        elif keyword in ("exclude", "include"):
            self.rules.append((keyword == "include", pattern(value)))
        elif keyword == "nohidden":
            self.nohidden = True
        elif keyword in self.numbers and value.isdecimal():
            self.numbers[keyword] = int(value)

    def own_files(self):
        """Parity and content files, and the drafts of these."""
        parity = [part for parts in self.levels.values() for part in parts]
        return parity + self.contents + [file + b".tmp" for file in self.contents]

    def own_paths(self, folder):
        """The paths of the array's own files below a data folder, by their names as text."""
        front = folder if folder == b"/" else folder + b"/"
        return {file[len(front):] for file in self.own_files() if file.startswith(front)}

    def keeps(self, path):
        """Whether the rules keep a path."""
        if self.nohidden and (path.startswith(b".") or b"/." in path):
            return False
        if not self.rules:
            return True
        first = self._first_rule(path.decode())
        return self.rules[first.lastindex - 1][0] if first else not self.rules[-1][0]

    @functools.cached_property
    def _first_rule(self):
        return re.compile("|".join("(%s)" % rule for _, rule in self.rules), re.DOTALL).match


def pattern(text):
    """The regular expression of a pattern, from the front of a path."""
    wild = {"?": "[^/]", "*": "[^/]*"}
    middle = "".join(wild.get(letter) or re.escape(letter) for letter in text.strip("/"))
    front = "" if text.startswith("/") else "(?:.*/)?"
    end = "/" if text.endswith("/") else r"\Z"
    return front + middle + end


def files_below(folder, keeps):
    """The regular files below a folder, as a listing of the program finds them: paths and entries. Entries of which
    `keeps` says no are passed over; names that are not UTF-8 are a failure."""
    folders = [b""]
    while folders:
        below = folders.pop()
        try:
            with os.scandir(os.path.join(folder, below) if below else folder) as entries:
                for entry in entries:
                    path = below + b"/" + entry.name if below else entry.name
                    if not entry.name.isascii():
                        check_name(folder, path, entry.name)
                    if len(path) > LONGEST:
                        continue
                    if entry.is_dir(follow_symlinks=False):
                        folders.append(path)
                    elif entry.is_file(follow_symlinks=False) and keeps(path):
                        yield path, entry
        except FileNotFoundError as error:
            if not below:
                raise Failure("%s: %s" % (os.fsdecode(folder), error.strerror)) from error
        except OSError as error:
            raise Failure("%s: %s" % (os.fsdecode(error.filename or folder), error.strerror)) from error


def check_name(folder, path, name):
    try:
        name.decode()
    except UnicodeDecodeError as error:
        raise Failure("a name is not UTF-8: %s" % shown(folder + b"/" + path)) from error


def is_record_path(path):
    """Whether the path of a file may be that of a record."""
    return len(path) <= LONGEST_RECORD and not (
        b".unrecoverable" in path and any(part.endswith(b".unrecoverable") for part in path.split(b"/")))


def meta(seen):
    """Size and mtime, as the program prints them."""
    return b"%d %d.%09d" % (seen.st_size, *divmod(seen.st_mtime_ns, 10**9))


def escaped(path):
    return re.sub(rb"[\x00-\x1f\x7f\\]", lambda it: b"\\x%02x" % it[0][0], path)


def unescaped(path):
    if b"\\" not in path:
        return path
    return re.sub(rb"\\x([0-9a-f]{2})", lambda it: bytes([int(it[1], 16)]), path)


def shown(path):
    """A path as it can be printed, whatever it holds."""
    return escaped(path).decode("utf-8", "backslashreplace")
