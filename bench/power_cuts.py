"""What a power cut leaves of what a run wrote, for crashes.py: by the calls of the run, what was not synced may be lost."""
import os

from crash_array import put, read

# Where the flags stand among the arguments of a call that opens.
FLAGS = {"open": 1, "openat": 2}


def is_done(call):
    return call.result is not None and call.result >= 0


def above(path):
    """The folder in which a name stands."""
    return os.path.dirname(os.path.normpath(path))


def makes(call):
    """Whether a call made a file that was not there."""
    if call.name not in FLAGS:
        return False
    flags = call.args[FLAGS[call.name]]
    return bool(flags & os.O_CREAT and flags & os.O_EXCL)


def loose_at_end(calls):
    """Files that were written, cut or given a time, and folders in which a name was made or changed, without an fsync behind it. What the
    run printed is left out."""
    loose = set()
    for call in filter(is_done, calls):
        path = os.path.normpath(call.path)
        if call.name in ("write", "pwrite64", "ftruncate", "utimensat"):
            # The time of a folder is set, and set back, where it is tried whether it keeps nanoseconds.
            if not os.path.isdir(path) and os.path.basename(path) not in ("out", "err"):
                loose.add(path)
        elif call.name in ("fsync", "fdatasync"):
            loose.discard(path)
        elif call.name in ("mkdir", "mkdirat") or makes(call):
            loose.add(above(path))
        elif call.name in ("unlink", "unlinkat"):
            loose.discard(path)
        elif call.name.startswith("rename"):
            if path in loose:
                loose.remove(path)
                loose.add(os.path.normpath(call.to))
            loose |= {above(path), above(call.to)}
    return sorted(loose)


def power_cut(array, calls):
    """What was written since the last sync of its file becomes what a power cut may leave: new, old or other bytes, in any part of it. A
    rename whose folder was not synced is done or not, and a draft holds anything."""
    rnd, loose, renames, drafts = array.rnd, {}, {}, set()
    for call in calls:
        if call.result is None or call.result < 0:
            continue
        if call.name == "pwrite64":
            loose.setdefault(call.path, []).append((call.args[3], call.args[3] + call.result))
        elif call.name == "write" and call.path.endswith(".tmp"):
            drafts.add(call.path)
        elif call.name in ("fsync", "fdatasync"):
            loose.pop(call.path, None)
            drafts.discard(call.path)
            renames = {to: over for to, over in renames.items() if os.path.dirname(to) != call.path}
        elif call.name.startswith("rename") and call.to in array.copies:
            renames[call.to] = call.over
        elif call.name.startswith("rename") and call.path in loose:
            loose[call.to] = loose.pop(call.path)
    for path in drafts:
        if os.path.exists(path):
            rnd.choice([os.remove, lambda it: put(it, rnd.randbytes(rnd.randrange(500)), 10**9)])(path)
    for to, over in renames.items():
        if rnd.random() < 0.5:
            os.replace(to, f"{to}.tmp")
            if over is not None:
                put(to, over, 10**9)
    for path, ranges in loose.items():
        if os.path.isfile(path):
            scramble(array, path, ranges)


def scramble(array, path, ranges):
    rnd, data = array.rnd, bytearray(read(path))
    stamp = os.stat(path).st_mtime_ns
    old = read(array.aside + path[len(array.room):]) or b""
    for first, end in ranges:
        end = min(end, len(data))
        at = first + rnd.randrange(max(1, end - first))
        kind = rnd.randrange(3)
        if kind == 1:
            data[at:end] = old[at:end].ljust(end - at, b"\0")
        elif kind == 2:
            data[at:end] = rnd.randbytes(max(0, end - at))
    put(path, bytes(data), stamp)
