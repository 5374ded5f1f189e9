"""Scenes for obstacles.py in which a run has to leave an array alone, or to guard what it makes: two runs at once, names that stand for one
file, modes, files that go while a folder is listed, and a level of several files that is lost as a whole.

Each scene gets an array that was synced, and gives what is wrong, if anything is.
"""
import os
import shutil
import stat
import subprocess
import tempfile
import threading
import time

from tracing import Tamper, traced

REFUSED = "snapraid: configuration or opening failed\nsnapraid: "
TAKEN = REFUSED + "lock '{room}/conf': another run has locked it\n"
WRITERS = ("sync", "scrub -p full", "fix")
READERS = ("list", "status", "dup")


def changed(array, before, but=()):
    """The first name that an array does not hold as before."""
    after = array.files()
    for name in sorted(before.keys() | after.keys()):
        if name not in but and before.get(name) != after.get(name):
            return f"{name} was changed"
    return None


def ends(array, command, status, err=""):
    """What is wrong with how a command ends and what it says on standard error."""
    got, out, said = array.run(command)
    wanted = err.format(room=array.room)
    return None if (got, said) == (status, wanted) else f"{command}: status {got}, {said!r}, {out[-200:]!r}"


class Waiting:
    """A run that waits at the first line that it prints: its standard output is a pipe that is full."""

    def __init__(self, array, command):
        self.far, near = os.pipe()
        os.set_blocking(near, False)
        try:
            while True:
                os.write(near, b" " * 4096)
        except BlockingIOError:
            os.set_blocking(near, True)
        words = [array.program, *command.split(), "-c", array.at("conf")]
        self.run = subprocess.Popen(words, stdout=near, stderr=subprocess.DEVNULL)
        os.close(near)

    def has_come(self):
        """Whether it prints, which is told by the call that it is in: write, of standard output."""
        for _ in range(600):
            try:
                with open(f"/proc/{self.run.pid}/syscall", encoding="ascii") as now:
                    if now.read().startswith("1 0x1 "):
                        return True
            except OSError:
                pass
            if self.run.poll() is not None:
                return False
            time.sleep(0.05)
        return False

    def goes_on(self):
        """It is let go on, and its status."""
        while os.read(self.far, 1 << 16):
            pass
        os.close(self.far)
        return self.run.wait()


def beside(first, seconds, taken):
    """While a run of the first command waits, each of the others is run: refused, with nothing changed, where it finds the lock taken."""
    def scene(array):
        array.put("d1/new", b"new")
        waiting = Waiting(array, first)
        wrong = None if waiting.has_come() else f"{first} does not wait"
        before = array.files()
        for second in seconds:
            wrong = wrong or (ends(array, second, 3, TAKEN) if taken else ends(array, second, 0)) or changed(array, before)
        status = waiting.goes_on()
        return wrong or (None if status == 0 else f"then {first} ends with {status}") or ends(array, "sync", 0)
    return scene


def refused_leaves_log(array):
    """A run that finds the lock taken leaves the log of another run as it is."""
    array.put("outside/log", b"kept\n")
    array.put("d1/new", b"new")
    waiting = Waiting(array, "sync")
    wrong = None if waiting.has_come() else "sync does not wait"
    wrong = wrong or ends(array, f"fix -l {array.at('outside/log')}", 3, TAKEN)
    waiting.goes_on()
    return wrong or holds(array, "outside/log", b"kept\n")


def refused_keeps_log(array):
    """A log stays as it is where words, configuration or the names in it are refused, and is emptied by a run that has no line for it."""
    log = array.at("outside/log")
    array.put("outside/log", b"kept\n")
    for command, status in ((f"sync --audit-only -l {log}", 2), (f"check -d none -l {log}", 2), (f"exercise 3 -l {log}", 0)):
        got = array.run(command)[0]
        wrong = None if got == status else f"{command}: status {got}"
        wrong = wrong or holds(array, "outside/log", b"kept\n")
        if wrong is not None:
            return wrong
    wrong = ends(array, f"check -l {log}", 0) or holds(array, "outside/log", b"")
    array.put("outside/log", b"kept\n")
    written_anew(array, ("blocksize 1", "blocksize none"))
    got = array.run(f"check -l {log}")[0]
    return wrong or (None if got == 2 else f"status {got}") or holds(array, "outside/log", b"kept\n")


def killed_frees(array):
    """A run that is killed leaves no lock, and no file that stands for one."""
    before = set(array.files())
    array.put("d1/new", b"new")
    waiting = Waiting(array, "sync")
    wrong = None if waiting.has_come() else "sync does not wait"
    waiting.run.kill()
    waiting.goes_on()
    strays = set(array.files()) - before - {"d1/new"}
    return wrong or (f"{sorted(strays)} stay" if strays else None) or ends(array, "sync", 0)


def piped(array):
    """A configuration that comes through a pipe is not locked, and is read once."""
    far, near = os.pipe()
    with open(array.at("conf"), "rb") as held:
        os.write(near, held.read())
    os.close(near)
    words = [array.program, "check", "-c", f"/dev/fd/{far}"]
    done = subprocess.run(words, pass_fds=[far], capture_output=True, text=True, check=False)
    os.close(far)
    return None if (done.returncode, done.stderr) == (0, "") else f"status {done.returncode}, {done.stderr!r}"


def holds(array, name, data):
    with open(array.at(name), "rb") as held:
        found = held.read()
    return None if found == data else f"{name} holds {found!r}"


def mode(array, name, wanted):
    found = stat.S_IMODE(os.lstat(array.at(name)).st_mode)
    return None if found == wanted else f"{name} has mode {found:o}"


def modes(array):
    """What is made is open to nobody else, though the mask of the process would let others read it."""
    os.umask(0o022)
    for name in ("par/p", "q", "c/content"):
        os.remove(array.at(name))
    wrong = ends(array, f"sync -l {array.at('outside/log')}", 0)
    shutil.rmtree(array.at("d1/s"))
    os.remove(array.at("q"))
    status, _, said = array.run("fix")
    wrong = wrong or (None if status == 0 else f"fix: status {status}, {said!r}")
    for name in ("par/p", "q", "c/content", "outside/log", "d1/s/b"):
        wrong = wrong or mode(array, name, 0o600)
    return wrong or mode(array, "d1/s", 0o700)


def draft_mode(array):
    """A draft is open to nobody else from its beginning: a run is killed before it puts the draft in the place of the content file."""
    os.umask(0o022)
    words = [array.program, "sync", "-c", array.at("conf")]
    with tempfile.TemporaryDirectory() as said:
        array.put("d1/new", b"new")
        writing = [call for call in traced(words, Tamper(), said).calls if call.writes]
        number = number_of(writing, array.at("c/content.tmp"), ("rename", "renameat", "renameat2"))
        array.put("d1/new", b"other")
        traced(words, Tamper("kill", number), said)
    if not os.path.exists(array.at("c/content.tmp")):
        return "it left no draft"
    return mode(array, "c/content.tmp", 0o600) or ends(array, "sync", 0)


def content_mode(array):
    """A content file that was opened to others stays so."""
    os.chmod(array.at("c/content"), 0o640)
    array.put("d1/new", b"new")
    return ends(array, "sync", 0) or mode(array, "c/content", 0o640)


def written_anew(array, *changes):
    with open(array.at("conf"), encoding="ascii") as held:
        text = held.read()
    for old, new in changes:
        if old not in text:
            raise ValueError(f"{old} is not in the configuration")
        text = text.replace(old, new)
    with open(array.at("conf"), "w", encoding="ascii") as out:
        out.write(text)


def one_file(*changes, prepare=None, words="", names=()):
    """A configuration in which two names stand for one file, or a folder lies in another: refused, and nothing is changed."""
    def scene(array):
        if prepare is not None:
            prepare(array)
        array.put("d1/new", b"new")
        written_anew(array, *((old.replace("ROOM", array.room), new.replace("ROOM", array.room)) for old, new in changes))
        for command in ("sync --force-empty", "scrub -p full", "fix", "check", "status"):
            before = array.files()
            got, _, said = array.run(f"{command} {words.replace('ROOM', array.room)}")
            told = said.startswith(REFUSED) and all(array.at(name) in said for name in names)
            wrong = None if got == 3 and told else f"{command}: status {got}, {said!r}"
            wrong = wrong or changed(array, before)
            if wrong is not None:
                return wrong
        return None
    return scene


def link_to_parity(array):
    os.symlink(array.at("par/p"), array.at("c/other"))


def hard_link_to_parity(array):
    os.link(array.at("par/p"), array.at("c/other"))


def number_of(calls, path, names):
    """The number of the first of these calls on a path, counted from one, and zero where there is none."""
    return next((at for at, call in enumerate(calls, 1) if call.name in names and os.path.normpath(call.path) == path), 0)


def vanishing(name, is_folder):
    """A file, or a folder, that goes after its folder was read and before it is looked at or entered: the sync goes on without it."""
    def scene(array):
        path = array.at(name)
        os.makedirs(os.path.dirname(path), exist_ok=True)
        array.put(name, b"goes")
        gone = os.path.dirname(path) if is_folder else path
        looks = ("open", "openat") if is_folder else ("stat", "lstat", "newfstatat", "statx")

        def vanish(call):
            if call.name not in looks or os.path.normpath(call.path) != gone or not os.path.exists(gone):
                return False
            if is_folder:
                shutil.rmtree(gone)
            else:
                os.remove(gone)
            return True

        with tempfile.TemporaryDirectory() as said:
            done = traced([array.program, "sync", "-c", array.at("conf")], Tamper(act=vanish), said)
        if done.hit is None or (done.status, done.err) != (0, ""):
            return f"status {done.status}, {done.err!r}"
        return ends(array, "check", 0) or changed(array, array.whole, ("c/content",))
    return scene


def pipe_swapped_in(array):
    """A pipe takes the place of a file after that was looked at: the check waits for its other end, and then says what it found."""
    path = array.at("d1/a")

    def swap(call):
        if call.name not in ("open", "openat") or os.path.normpath(call.path) != path or os.path.exists(array.at("outside/a")):
            return False
        os.rename(path, array.at("outside/a"))
        os.mkfifo(path)
        threading.Thread(target=lambda: open(path, "wb").close(), daemon=True).start()
        return True

    with tempfile.TemporaryDirectory() as said:
        done = traced([array.program, "check", "-c", array.at("conf")], Tamper(act=swap), said)
    if done.hit is None or done.status not in (1, 3):
        return f"status {done.status}, {done.err!r}, {done.out[:200]!r}"
    os.remove(path)
    os.rename(array.at("outside/a"), path)
    return ends(array, "check", 0) or changed(array, array.whole)


def split_level_lost(array):
    """All files of a level of two are gone: a fix makes them again, and a sync goes on."""
    written_anew(array, ("par/p\n", f"par/p,{array.room}/p2\n"))
    array.put("p2", b"")
    wrong = ends(array, "sync", 0)
    before = array.files()
    os.remove(array.at("par/p"))
    os.remove(array.at("p2"))
    status, out, said = array.run("fix")
    wrong = wrong or (None if status == 0 else f"fix: status {status}, {said!r}, {out!r}")
    wrong = wrong or changed(array, before) or ends(array, "check", 0)
    array.put("d1/new", b"n" * 400_000)
    return wrong or ends(array, "sync", 0) or ends(array, "check", 0)


def split_level_in_part(array):
    """One of two files is gone, and the other holds parity: the first is made, since it has bytes; what the last one held stays."""
    written_anew(array, ("par/p\n", f"par/p,{array.room}/p2\n"))
    array.put("p2", b"")
    wrong = ends(array, "sync", 0)
    before = array.files()
    os.remove(array.at("par/p"))
    status, out, said = array.run("fix")
    wrong = wrong or (None if status == 0 else f"fix: status {status}, {said!r}, {out!r}")
    return wrong or changed(array, before)


SAME_FILES = [
    ("a draft that is a parity file", one_file(("parity ROOM/par/p\n", "parity ROOM/c/content.tmp\n"), names=("c/content.tmp", "c/content.tmp"))),
    ("two levels of one name", one_file(("ROOM/q\n", "ROOM/par/./p\n"), names=("par/p", "par/./p"))),
    ("two levels of one file, by way of another folder", one_file(("ROOM/q\n", "ROOM/d1/../par/p\n"), names=("par/p", "d1/../par/p"))),
    ("a content file that is a link to parity", one_file(("ROOM/c/content\n", "ROOM/c/content\ncontent ROOM/c/other\n"),
                                                        prepare=link_to_parity, names=("par/p", "c/other"))),
    ("a content file that is parity by a second name", one_file(("ROOM/c/content\n", "ROOM/c/content\ncontent ROOM/c/other\n"),
                                                               prepare=hard_link_to_parity, names=("par/p", "c/other"))),
    ("a log that is a parity file", one_file(words="-l ROOM/par/../par/p", names=("par/p", "par/../par/p"))),
    ("a log that is the content file", one_file(words="-l ROOM/par/../c/content", names=("c/content", "par/../c/content"))),
    ("a log that is the configuration", one_file(words="-l ROOM/c/../conf", names=("conf", "c/../conf"))),
    ("a content file that is the configuration", one_file(("ROOM/c/content\n", "ROOM/c/content\ncontent ROOM/conf\n"), names=("conf", "conf"))),
    ("a data folder inside of another one", one_file(("data d2 ROOM/d2/", "data d2 ROOM/d1/s/"), names=("d1", "d1/s"))),
    ("two data folders that are the same", one_file(("data d2 ROOM/d2/", "data d2 ROOM/c/../d1/"), names=("d1", "c/../d1"))),
]

SCENES = [
    *((f"a second run that writes, or checks, beside a {first}", beside(first, (*WRITERS, "check"), True)) for first in WRITERS),
    *((f"a list, a status and a dup beside a {first}", beside(first, READERS, False)) for first in WRITERS),
    ("a second check beside a check", beside("check", ("check", "check -a", *READERS), False)),
    ("a run that writes beside a check", beside("check", WRITERS, True)),
    ("the log of a run that is refused", refused_leaves_log),
    ("the log of a run that has no line for it, or is refused before", refused_keeps_log),
    ("a run that is killed, and the next one", killed_frees),
    ("a configuration that comes through a pipe", piped),
    ("modes of what is made", modes),
    ("the mode of a draft", draft_mode),
    ("the mode of a content file", content_mode),
    *SAME_FILES,
    ("a file that goes while its folder is listed", vanishing("d1/goes", False)),
    ("a folder that goes while the one above it is listed", vanishing("d1/going/goes", True)),
    ("a pipe that takes the place of a file during a check", pipe_swapped_in),
    ("a level of two files that is lost as a whole", split_level_lost),
    ("the first of two files of a level", split_level_in_part),
]
