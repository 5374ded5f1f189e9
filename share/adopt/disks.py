"""What stands in the data folders now, beside what the old content file says."""
import os
import stat
from concurrent.futures import ThreadPoolExecutor

from configuration import keeps

SECOND = 1_000_000_000


class Found:
    """A folder: its kept files with size and nanoseconds since 1970, mounts inside, and names that are not UTF-8."""

    def __init__(self):
        self.files, self.mounts, self.no_names = {}, [], []


def walked(new, directory):
    found, own, pending = Found(), new.own(), [b""]
    root = os.fsencode(directory)
    device = os.stat(root).st_dev
    while pending:
        below = pending.pop()
        with os.scandir(os.path.join(root, below)) as entries:
            for entry in entries:
                path = os.path.join(below, entry.name)
                try:
                    path.decode()
                except UnicodeDecodeError:
                    found.no_names.append(path)
                    continue
                if entry.is_dir(follow_symlinks=False):
                    pending.append(path)
                    if entry.stat(follow_symlinks=False).st_dev != device:
                        found.mounts.append(path)
                elif entry.is_file(follow_symlinks=False) and keeps(new, path):
                    if os.path.join(root, path) not in own:
                        seen = entry.stat(follow_symlinks=False)
                        found.files[path] = seen.st_size, seen.st_mtime_ns
    found.mounts = [path for path in found.mounts if not any(is_below(path, mount) for mount in found.mounts)]
    return found


def is_below(path, folder):
    return path.startswith(folder + b"/")


def all_walked(new):
    """What stands in each folder of the new configuration, all read at the same time."""
    with ThreadPoolExecutor(len(new.data)) as pool:
        return list(pool.map(lambda disk: walked(new, disk[1]), new.data))


class Difference:
    """What the next sync will find on one disk. Unknown nanoseconds of unchanged files are set."""

    def __init__(self, records, found):
        self.same, self.changed, self.gone = [], [], []
        left = dict(found.files)
        for record in records:
            seen = left.pop(record.path, None)
            if seen is None:
                self.gone.append(record.path)
                continue
            seconds, nanos = divmod(seen[1], SECOND)
            if (record.size, record.seconds) == (seen[0], seconds) and record.nanos in (None, nanos):
                record.nanos = nanos
                self.same.append(record)
            else:
                self.changed.append(record.path)
        self.added = sorted(left)


def old_files(old):
    """The old content files with their drafts and locks, by where they really are."""
    return {os.path.realpath(os.fsencode(content + end)) for content in old.contents for end in ("", ".tmp", ".lock")}


def sorted_out(added, directory, found, links, own):
    """The new files: those that are further names of old ones, old content files, below mounts, and all others."""
    kinds = {"link": [], "own": [], "mount": [], "other": []}
    root, links = os.fsencode(directory), set(links)
    for path in added:
        if path in links:
            kinds["link"].append(path)
        elif os.path.realpath(os.path.join(root, path)) in own:
            kinds["own"].append(path)
        elif any(is_below(path, mount) for mount in found.mounts):
            kinds["mount"].append(path)
        else:
            kinds["other"].append(path)
    return kinds


def exclusion(path, ends=""):
    """The line that leaves a file or, with a slash as its end, a folder out. A question mark stands for what a pattern can't spell."""
    text = path.decode()
    text = "".join("?" if letter in "[*?" or letter < " " or letter == "\x7f" else letter for letter in text)
    if text[-1] in " \t" and not ends:
        text = text[:-1] + "?"
    return f"exclude /{text}{ends}"


def regular_length(name):
    """The length of a file, None if there is none of that name."""
    try:
        seen = os.stat(name)
    except FileNotFoundError:
        return None
    return seen.st_size if stat.S_ISREG(seen.st_mode) else None
