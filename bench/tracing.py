"""Runs a program under ptrace and counts the system calls on files of all its threads in one row, so that each of them has a number.

One of them may be the program's last (it is killed before the call is done), or fail with an error of the system without being done.
strace can do either as well, but it counts each thread by itself, so it can't name each call of a run. It is for x86-64 alone.
"""
import ctypes
import os
import signal
import struct
from dataclasses import dataclass, field

LIBC = ctypes.CDLL(None, use_errno=True)
LIBC.ptrace.argtypes = [ctypes.c_long, ctypes.c_long, ctypes.c_void_p, ctypes.c_void_p]
LIBC.ptrace.restype = ctypes.c_long
TRACEME, POKEUSER, SETOPTIONS, SYSCALL, SYSCALL_INFO = 0, 6, 0x4200, 24, 0x420E
# Stops at system calls are told from others, new threads are traced too, and nothing outlives the tracer.
OPTIONS = 0x1 | 0x8 | 0x100000
NUMBER_AT, RESULT_AT = 15 * 8, 10 * 8
ALL_THREADS = 0x40000000

READING = {0: "read", 3: "close", 4: "stat", 5: "fstat", 6: "lstat", 8: "lseek", 17: "pread64", 217: "getdents64", 262: "newfstatat",
           318: "getrandom", 332: "statx"}
WRITING = {1: "write", 18: "pwrite64", 74: "fsync", 75: "fdatasync", 77: "ftruncate", 82: "rename", 83: "mkdir", 87: "unlink",
           258: "mkdirat", 263: "unlinkat", 264: "renameat", 280: "utimensat", 316: "renameat2"}
OPENING = {2: "open", 257: "openat"}
MAKES = os.O_CREAT | os.O_TRUNC
PATH_FIRST = ("stat", "lstat", "open", "rename", "mkdir", "unlink")
PATH_SECOND = ("openat", "newfstatat", "statx", "mkdirat", "unlinkat", "renameat", "renameat2", "utimensat")
RENAMES = ("rename", "renameat", "renameat2")


@dataclass
class Call:
    """A call on a file: its name, the path that it is for, whether it writes, its arguments, and what it gave. A rename has its second
    path, too, and the bytes that stood there."""
    name: str
    path: str
    writes: bool
    args: tuple
    result: int | None = None
    to: str = ""
    over: bytes | None = None


@dataclass
class Tamper:
    """What is done to a run: the call of this number is its last, or fails. Kills count calls that write, failures all calls. Just before
    each call `act` is told of it, and may do something to the files; it says whether it did."""
    kind: str = ""
    number: int = 0
    error: int = 0
    act: object = None


@dataclass
class Outcome:
    status: int
    out: str
    err: str
    calls: list = field(default_factory=list)
    hit: Call | None = None


def ptrace(request, pid, address=0, data=0):
    if LIBC.ptrace(request, pid, address, data) < 0:
        error = ctypes.get_errno()
        raise OSError(error, os.strerror(error))


def text_at(pid, address):
    """A path in the memory of the program, up to its zero byte."""
    found = b""
    with open(f"/proc/{pid}/mem", "rb", buffering=0) as memory:
        memory.seek(address)
        while b"\0" not in found and len(found) < 8192:
            # No further than the end of a page: the next one need not be there.
            piece = memory.read(4096 - (address + len(found)) % 4096)
            if not piece:
                break
            found += piece
    return found.split(b"\0")[0].decode(errors="replace")


def place_of(pid, fd):
    try:
        return os.readlink(f"/proc/{pid}/fd/{fd}")
    except OSError:
        return ""


def call_of(pid, number, args):
    """The call, where it is one on a file."""
    if number in OPENING:
        name = OPENING[number]
        flags = args[1] if name == "open" else args[2]
        writes = bool(flags & MAKES)
    elif number in WRITING or number in READING:
        name = WRITING.get(number) or READING[number]
        writes = number in WRITING
    else:
        return None
    if name in PATH_FIRST:
        path = text_at(pid, args[0])
    elif name in PATH_SECOND and args[1]:
        path = text_at(pid, args[1]) or place_of(pid, ctypes.c_int(args[0]).value)
    elif name == "getrandom":
        path = ""
    else:
        path = place_of(pid, ctypes.c_int(args[0]).value)
    call = Call(name, path, writes, args)
    if name in RENAMES:
        call.to = text_at(pid, args[1] if name == "rename" else args[3])
        if os.path.isfile(call.to):
            with open(call.to, "rb") as held:
                call.over = held.read()
    return call


class Tracer:
    def __init__(self, words, tamper, room):
        self.tamper, self.counts, self.calls, self.hit = tamper, {"kill": 0, "fail": 0}, [], None
        self.begun, self.pending, self.refused = False, {}, {}
        self.info = ctypes.create_string_buffer(88)
        self.main = os.fork()
        if self.main == 0:
            self.become(words, room)

    def become(self, words, room):
        try:
            for number, name in ((1, "out"), (2, "err")):
                os.dup2(os.open(os.path.join(room, name), os.O_WRONLY | os.O_CREAT | os.O_TRUNC, 0o600), number)
            ptrace(TRACEME, 0)
            os.kill(os.getpid(), signal.SIGSTOP)
            os.execv(words[0], words)
        finally:
            os._exit(127)

    def run(self):
        """Follows the program to its end, and gives its status."""
        os.waitpid(self.main, ALL_THREADS)
        ptrace(SETOPTIONS, self.main, 0, OPTIONS)
        ptrace(SYSCALL, self.main)
        while True:
            pid, status = os.waitpid(-1, ALL_THREADS)
            if os.WIFEXITED(status) or os.WIFSIGNALED(status):
                if pid == self.main:
                    return os.waitstatus_to_exitcode(status)
                continue
            try:
                self.go_on(pid, status)
            except (ProcessLookupError, FileNotFoundError):
                pass  # it was killed meanwhile

    def go_on(self, pid, status):
        stopped = os.WSTOPSIG(status)
        given = 0
        if stopped == signal.SIGTRAP | 0x80:
            self.at_call(pid)
        elif stopped not in (signal.SIGTRAP, signal.SIGSTOP):
            given = stopped
        ptrace(SYSCALL, pid, 0, given)

    def at_call(self, pid):
        ptrace(SYSCALL_INFO, pid, len(self.info), ctypes.addressof(self.info))
        kind = self.info.raw[0]
        if kind == 1:
            number, *args = struct.unpack_from("<7Q", self.info.raw, 24)
            self.enters(pid, number, tuple(args))
        elif kind == 2:
            self.leaves(pid, struct.unpack_from("<q", self.info.raw, 24)[0])

    def enters(self, pid, number, args):
        call = call_of(pid, number, args)
        if call is None:
            return
        # What the loader does before the program begins is not counted: the null device is the first that it opens.
        self.begun = self.begun or call.path == "/dev/null"
        if not self.begun:
            return
        self.calls.append(call)
        self.pending[pid] = call
        if self.tamper.act is not None and self.tamper.act(call):
            self.hit = call
        for kind, counts in (("kill", call.writes), ("fail", True)):
            self.counts[kind] += counts
            if counts and self.tamper.kind == kind and self.counts[kind] == self.tamper.number:
                self.hit = call
                if kind == "kill":
                    os.kill(self.main, signal.SIGKILL)
                else:
                    ptrace(POKEUSER, pid, NUMBER_AT, 2**64 - 1)
                    self.refused[pid] = self.tamper.error

    def leaves(self, pid, result):
        error = self.refused.pop(pid, None)
        if error is not None:
            ptrace(POKEUSER, pid, RESULT_AT, 2**64 - error)
            result = -error
        call = self.pending.pop(pid, None)
        if call is not None:
            call.result = result


def traced(words, tamper, room):
    """Runs the program with these words. What it prints goes through two files in the room."""
    tracer = Tracer(words, tamper, room)
    status = tracer.run()
    said = []
    for name in ("out", "err"):
        with open(os.path.join(room, name), "rb") as held:
            said.append(held.read().decode(errors="replace"))
    return Outcome(status, *said, tracer.calls, tracer.hit)
