"""Arrays in memory-backed storage, for the benches that run whole commands."""
import os
import shutil
import subprocess
import sys

TOP = os.path.dirname(os.path.dirname(os.path.abspath(__file__)))
PROGRAM = os.path.join(TOP, "crates", "snapraid", "out", "snapraid")
DISKS, LEVELS = 6, 3


def make_files(room, name, total, size):
    """Files of about this size, in folders of a hundred, until there are so many bytes. They have a stamp with nanoseconds."""
    count = max(1, total // size)
    for disk in range(DISKS):
        os.makedirs(os.path.join(room, name, f"d{disk}"))
    block = os.urandom(1 << 20)
    for number in range(count):
        folder = os.path.join(room, name, f"d{number % DISKS}", f"part{number // (100 * DISKS):05}")
        os.makedirs(folder, exist_ok=True)
        left = size if size > 1 << 20 else 1 + (number * 2654435761) % (2 * size)
        with open(os.path.join(folder, f"file{number:07}"), "wb") as file:
            start = (number * 4099) % len(block)
            while left > 0:
                piece = block[start:start + left]
                file.write(piece)
                left -= len(piece)
                start = 0
    return count


def parity_files(room, name, tool, level, parts):
    """The files of a level, in order."""
    only = f"{room}/{tool}-{name}.parity{level}"
    return [only] if parts == 1 else [f"{only}.{part}" for part in range(parts)]


def configuration(room, name, tool, block=256, levels=LEVELS, parts=1):
    """The path of a configuration with blocks of so many KiB, so many levels, and one copy of the content more. Each level has so many
    files, and where that is more than one, each but the last holds 10^9 bytes."""
    lines = [] if parts == 1 else ["splitsize 1"]
    for level in range(levels):
        files = ",".join(parity_files(room, name, tool, level, parts))
        lines.append(f"{'' if level == 0 else str(level + 1) + '-'}parity {files}")
    for copy in range(levels + 1):
        lines.append(f"content {room}/{tool}-{name}.content{copy}")
    lines += [f"data d{disk} {room}/{name}/d{disk}/" for disk in range(DISKS)]
    lines.append(f"blocksize {block}")
    path = f"{room}/{tool}-{name}.conf"
    with open(path, "w") as file:
        file.write("\n".join(lines) + "\n")
    return path


def tools():
    """This program and, where it is found on the PATH, the real snapraid, each with its first words."""
    found = {"this": [PROGRAM]}
    real = shutil.which("snapraid")
    if real is not None and os.path.realpath(real) != os.path.realpath(PROGRAM):
        # It wants each disk on a device of its own.
        found["real"] = [real, "--test-skip-device"]
    return found


def heading(title, *first):
    """The lines above a table of figures, each row of which begins with these columns."""
    columns = [*first, "tool", "wall s", "processor s", "memory MiB"]
    print(title)
    print(f"| {' | '.join(columns)} |")
    print("|---" * len(columns) + "|", flush=True)


def row(*cells):
    """A row of such a table: times have two digits behind the point."""
    print(f"| {' | '.join(f'{cell:.2f}' if isinstance(cell, float) else str(cell) for cell in cells)} |", flush=True)


def measured(command, wanted=None):
    """Wall time, processor time and the most memory in KiB of one run, by a process of its own that waits for it, and what it printed. A
    command that finds something ends with 1, so any status is taken where none is wanted."""
    script = ("import resource, subprocess, sys, time; start = time.monotonic(); "
              "done = subprocess.run(sys.argv[1:], stdout=subprocess.PIPE, stderr=subprocess.STDOUT); "
              "wall = time.monotonic() - start; used = resource.getrusage(resource.RUSAGE_CHILDREN); sys.stdout.buffer.write(done.stdout); "
              "print(); print(wall, used.ru_utime + used.ru_stime, used.ru_maxrss, done.returncode)")
    said = subprocess.run([sys.executable, "-c", script, *command], stdout=subprocess.PIPE, check=True).stdout.decode(errors="replace")
    text, _, figures = said.rstrip().rpartition("\n")
    wall, spent, memory, status = figures.split()
    if wanted is not None and int(status) != wanted:
        sys.exit(f"{text}\n{' '.join(command)}: status {status}")
    return float(wall), float(spent), int(memory), text
