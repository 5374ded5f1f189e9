"""What has to hold before an array is taken over. What does not is added to the reasons."""
import fcntl
import mmap
import os
import time

from configuration import LEVELS, MOST_KIB, Refused
from disks import exclusion, regular_length
from old_content import old_content
from snapraid_array import LONGEST_RECORD, is_record_path

MOST_BLOCKS, MOST_FILES, MOST_COLUMNS, DAY = 67_108_864, 16_777_216, 251, 86_400
AGAIN = "Run 'sync' of the old program again"


def locked(name):
    """Holds a file as the programs do while they run, as long as this process lives. No file is made."""
    try:
        fd = os.open(name, os.O_RDONLY)
    except FileNotFoundError:
        return
    try:
        fcntl.flock(fd, fcntl.LOCK_EX | fcntl.LOCK_NB)
    except BlockingIOError:
        raise Refused(f"{name}: another run holds it") from None


def read_content(old):
    """The content of the old array. All its copies have to be there, and the same."""
    first = None
    for name in old.contents:
        try:
            with open(name, "rb") as file:
                data = mmap.mmap(file.fileno(), 0, access=mmap.ACCESS_READ)
        except FileNotFoundError:
            raise Refused(f"{name}: this content file is not there. {AGAIN}") from None
        except ValueError:
            raise Refused(f"{name}: this content file is empty. {AGAIN}") from None
        if first is None:
            first = data
        elif len(first) != len(data) or any(
                first[at:at + (1 << 20)] != data[at:at + (1 << 20)] for at in range(0, len(first), 1 << 20)):
            raise Refused(f"{name}: this content file differs from {old.contents[0]}. {AGAIN}")
    return old_content(old.contents[0], first)


def check_state(content, reasons):
    """The old array is synced, and within the limits of this program."""
    if content.unsynced or content.deleted:
        reasons.add(f"{content.unsynced} blocks are not synced, and {content.deleted} deleted ones are in the parity. {AGAIN}")
    if content.bad:
        reasons.add(f"{content.bad} stripes are bad. Run 'fix -e' and 'scrub -p bad' of the old program")
    for level in sorted(set(content.parts_used)):
        reasons.add(f"{LEVELS[level]} is split over several files that are used. This program splits at other bytes")
    if content.block % 1024 or not 1 <= content.block // 1024 <= MOST_KIB:
        reasons.add(f"blocks of {content.block} bytes are not those of this program, which are at most {MOST_KIB} KiB")
    positions = [column.position for column in content.columns]
    if len(set(positions)) != len(positions) or max(positions, default=0) >= MOST_COLUMNS:
        reasons.add("the places of the disks in the parity are not understood, or there are too many")
    files = sum(len(column.records) for column in content.columns)
    blocks = sum(column.used.count(1) for column in content.columns)
    if files > MOST_FILES or blocks > MOST_BLOCKS:
        reasons.add(f"{blocks} blocks and {files} files are too many, at most {MOST_BLOCKS} and {MOST_FILES} can be recorded")


def check_age(content, days, reasons):
    """No stripe was checked too long ago, so that rot is known."""
    if content.oldest is None:
        return
    age = (int(time.time()) - content.oldest) // DAY
    if age >= days:
        reasons.add(f"the last sync or scrub of a stripe was {age} days ago, and what rotted since would be taken as right. "
                    "Run 'scrub -p full' of the old program, or add --compare")


def check_names(content, reasons):
    """Each recorded path can be recorded here too."""
    for column in content.columns:
        wrong, folders = [], set()
        for record in column.records:
            if not can_be_recorded(record.path):
                wrong.append(record.path)
            folder = os.path.dirname(record.path)
            while folder and folder not in folders:
                folders.add(folder)
                folder = os.path.dirname(folder)
        wrong += [record.path for record in column.records if record.path in folders]
        column.records.sort(key=lambda record: record.path)
        wrong += [one.path for one, next_one in zip(column.records, column.records[1:]) if one.path == next_one.path]
        reasons.each([column.name.encode() + b":" + path for path in wrong], "this name cannot be recorded: a path is UTF-8 of at "
                     f"most {LONGEST_RECORD} bytes, and no part of it ends in .unrecoverable")


def can_be_recorded(path):
    try:
        path.decode()
    except UnicodeDecodeError:
        return False
    return is_record_path(path) and not {b"", b".", b".."} & set(path.split(b"/")) and b"\0" not in path


def has_to_say(new, line, reasons):
    reasons.add(f"{new.name} has to say: {line}")
    reasons.suggested.append(line)


def check_parity(old, new, content, reasons):
    """The new configuration names the parity files of the old one, and they are long enough."""
    if content.block != new.kib * 1024 and content.block <= MOST_KIB * 1024:
        has_to_say(new, f"blocksize {content.block // 1024}", reasons)
    if len(old.levels) != content.levels:
        reasons.add(f"{old.name} has {len(old.levels)} levels, and its content {content.levels}. {AGAIN}")
    for level, files in sorted(old.levels.items()):
        named, length = new.levels.get(level, []), regular_length(files[0])
        if len(named) != 1 or os.path.realpath(named[0]) != os.path.realpath(files[0]):
            has_to_say(new, f"{LEVELS[level]} {files[0]}", reasons)
        if length is None:
            reasons.add(f"{files[0]}: this parity file is not there")
        elif length < (content.occupied.rfind(1) + 1) * content.block:
            reasons.add(f"{files[0]}: this parity file is too short. Run 'fix' of the old program")
    for level in sorted(set(new.levels) - set(old.levels)):
        reasons.add(f"{new.name} has to say nothing of {LEVELS[level]}, which the old array has not")


def check_contents(old, new, reasons):
    """The new content files are others than all old files, and none of them is there."""
    taken = {os.path.realpath(name) for name in old.contents + [file for files in old.levels.values() for file in files]}
    for name in new.contents:
        if os.path.realpath(name) in taken:
            reasons.add(f"{name}: this is a file of the old array. Give the new content files other names")
        elif os.path.lexists(name):
            reasons.add(f"{name}: this is there already, and would be the new content file")
        elif not os.path.isdir(os.path.dirname(name) or "."):
            reasons.add(f"{name}: its folder is not there")


def wanted_folders(old, content):
    """The folder of each column, None where the old array has a gap. A disk that it never had a file of fills the first gap."""
    folders, by_name = {}, dict(old.data)
    for column in content.columns:
        if column.name not in by_name:
            raise Refused(f"disk '{column.name}' of the content is not in {old.name}. {AGAIN}")
        folders[column.position] = by_name.pop(column.name)
    for directory in by_name.values():
        folders[next(place for place in range(MOST_COLUMNS + 1) if place not in folders)] = directory
    return [folders.get(place) for place in range(max(folders, default=-1) + 1)]


def check_columns(old, new, content, reasons):
    """The data lines of the new configuration have the old folders at their places."""
    wanted, given = wanted_folders(old, content), [directory for _, directory in new.data]
    real = {os.path.realpath(directory) for directory in wanted if directory is not None}
    for directory in given:
        if not os.path.isdir(directory):
            reasons.add(f"{directory}: this folder is not there")
    right = len(given) >= len(wanted) and all(
        os.path.realpath(is_given) not in real if directory is None else os.path.realpath(is_given) == os.path.realpath(directory)
        for directory, is_given in zip(wanted, given))
    if not right or any(os.path.realpath(directory) in real for directory in given[len(wanted):]):
        reasons.add(f"{new.name} has to have these data lines first, in this order:")
        names = {directory: name for name, directory in old.data}
        for place, directory in enumerate(wanted):
            line = f"data {names[directory]} {directory}/" if directory else f"data gap{place + 1} AN-EMPTY-FOLDER"
            reasons.add("    " + line)
            reasons.suggested.append(line)


def check_found(name, found, difference, kinds, allow, reasons):
    """What stands in a folder is what the old content file says, and the first sync lays nothing out anew."""
    def told(paths):
        return [name.encode() + b":" + path for path in paths]

    reasons.each(told(found.no_names), "this name is not UTF-8. Rename it, and sync with the old program")
    if kinds["own"]:
        reasons.each(told(kinds["own"]), "this file of the old program would be data. Exclude it, see --suggest")
    reasons.suggested += [exclusion(path) for path in kinds["own"]]
    reasons.suggested += [exclusion(path) for path in kinds["link"]]
    if kinds["mount"]:
        reasons.suggested += [exclusion(path, "/") for path in found.mounts]
    if allow:
        return
    if kinds["mount"]:
        reasons.each(told(found.mounts), "another file system is mounted here, which the old program passes over. Exclude it, see "
                     "--suggest")
    reasons.each(told(kinds["link"]), "the old program has it as a hard link, and here it would be a file of its own. Exclude it, "
                 "see --suggest")
    reasons.each(told(kinds["other"]), f"it is new. {AGAIN}, exclude it, or add --allow-changes")
    reasons.each(told(difference.changed), f"it changed since the last sync. {AGAIN}, or add --allow-changes")
    reasons.each(told(difference.gone), f"it is gone, or a rule leaves it out. {AGAIN}, or add --allow-changes")
