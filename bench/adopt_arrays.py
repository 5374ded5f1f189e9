"""Small random arrays of the real snapraid, for bench/adopt.py."""
import os
import random
import shutil
import subprocess

LEVELS = ["parity", "2-parity", "3-parity", "4-parity", "5-parity", "6-parity"]
# It wants each disk on a device of its own, and lays files out by inode if it is not told otherwise.
FORCED = ["--test-skip-device", "--test-skip-self", "--test-force-order-alpha", "--no-warnings", "-q"]
PARTS = ["a", "B b", "ü", "x[1]", "what?", "star*", ".hidden", "zz", "a-b", "日本"]
SECOND = 1_000_000_000


def tree(folder):
    """All files below a folder: bytes and time of each."""
    found = {}
    for at, _, names in os.walk(folder):
        for name in names:
            path = os.path.join(at, name)
            if not os.path.islink(path):
                with open(path, "rb") as file:
                    found[os.path.relpath(path, folder)] = file.read(), os.stat(path).st_mtime_ns
    return found


def prune(folder):
    """Removes folders without a file: this program does not restore them."""
    for at, _, _ in os.walk(folder, topdown=False):
        if at != folder and not os.listdir(at):
            os.rmdir(at)


def empty(folder):
    shutil.rmtree(folder)
    os.mkdir(folder)


class OldArray:
    """Folders, and a configuration of the real tool."""

    def __init__(self, room, rnd, real, levels=None, disks=None):
        self.room, self.rnd, self.real = room, rnd, real
        self.kib, self.levels = rnd.choice([1, 1, 2, 4]), levels or rnd.randint(1, 6)
        self.folders, self.made = [], 0
        for _ in range(disks or rnd.randint(2, 6)):
            self.add_disk()
        for number in range(self.levels):
            os.mkdir(f"{room}/p{number}")
        self.configure()

    def add_disk(self):
        self.folders.append(f"{self.room}/disk{self.made}")
        os.mkdir(self.folders[-1])
        self.made += 1

    def parity(self):
        return [f"{self.room}/p{number}/parity" for number in range(self.levels)]

    def contents(self):
        return [f"{self.room}/old{number}" for number in range(self.levels + 1)]

    def configure(self, more=()):
        lines = [f"blocksize {self.kib}"] + [f"content {name}" for name in self.contents()]
        lines += [f"{level} {name}" for level, name in zip(LEVELS, self.parity())]
        lines += [f"data {os.path.basename(folder)} {folder}/" for folder in self.folders]
        with open(f"{self.room}/old.conf", "w", encoding="utf-8") as file:
            file.write("".join(line + "\n" for line in [*lines, *more]))

    def run(self, *words):
        return subprocess.run([self.real, "-c", f"{self.room}/old.conf", *FORCED, *words], capture_output=True, check=False)

    def must(self, *words):
        done = self.run(*words)
        if done.returncode != 0:
            raise AssertionError(f"the real tool: {words}: {done.returncode} {done.stderr.decode(errors='replace')[-400:]}")

    def add_files(self, folder, most):
        """Files of no block, of a part of one, and of several, at times with nanoseconds and without."""
        for _ in range(self.rnd.randint(0, most)):
            path = os.path.join(folder, *[self.rnd.choice(PARTS) for _ in range(self.rnd.randint(1, 3))])
            size = self.rnd.choice([0, 1, self.kib * 1024, self.rnd.randint(1, 9 * self.kib * 1024)])
            try:
                os.makedirs(os.path.dirname(path), exist_ok=True)
                with open(path, "wb") as file:
                    file.write(self.rnd.randbytes(size))
            except (FileExistsError, NotADirectoryError, IsADirectoryError):
                continue
            stamp = self.rnd.randint(1, 1_700_000_000) * SECOND + self.rnd.choice([0, self.rnd.randrange(SECOND)])
            os.utime(path, ns=(stamp, stamp))

    def delete_files(self, folder):
        for path in sorted(tree(folder)):
            if self.rnd.random() < 0.35:
                os.remove(os.path.join(folder, path))

    def live(self):
        """Some syncs, with changes between them: files come and go, a disk is added, another one removed."""
        for turn in range(self.rnd.randint(1, 4)):
            for folder in self.folders:
                if turn:
                    self.delete_files(folder)
                self.add_files(folder, 12)
            if turn and self.rnd.random() < 0.4 and len(self.folders) < 8:
                self.add_disk()
                self.add_files(self.folders[-1], 20)
                self.configure()
            for folder in self.folders:
                prune(folder)
            self.must("sync", "-E", "-Z")
            if turn and self.rnd.random() < 0.4 and len(self.folders) > 2:
                self.remove_disk()

    def remove_disk(self):
        """As its manual says: the files go, a sync, and then the line."""
        folder = self.rnd.choice(self.folders)
        empty(folder)
        self.must("sync", "-E", "-Z")
        self.folders.remove(folder)
        self.configure()

    def adopting(self, data, more=()):
        """A configuration of this program for the same array, with these data lines."""
        lines = [f"blocksize {self.kib}", f"content {self.room}/new0", f"content {self.room}/new1"]
        lines += [f"{level} {name}" for level, name in zip(LEVELS, self.parity())]
        with open(f"{self.room}/new.conf", "w", encoding="utf-8") as file:
            file.write("".join(line + "\n" for line in [*lines, *data, *more]))


def random_array(room, seed, real):
    array = OldArray(room, random.Random(seed), real)
    array.live()
    return array
