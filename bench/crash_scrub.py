"""What a scrub of all stripes may leave, for crashes.py: the copies as they were, or with the marks that follow from what it printed."""
import os
import time

from crash_array import read_content
from scrub_model import mark_after


def wrong_scrub(case, outcome):
    """What is wrong with the array once a scrub went as far as its outcome says."""
    array, ended = case.array, outcome.status in (0, 1)
    if array.all_trees() != case.trees or array.held() != case.held:
        return "a data file or a level was changed"
    content = next(filter(None, map(read_content, filter(None, case.loaded))), None)
    for number, (data, before) in enumerate(zip(array.contents(), case.loaded), 1):
        is_whole = data is not None and is_marked(content, read_content(data), outcome, case.clock)
        if not is_whole and (ended or data != before):
            return f"copy {number} has not the marks" if ended else f"copy {number} is neither as before nor marked"
    if ended and any(content.is_checked(stripe) for stripe in range(len(content.marks))):
        if len(set(array.contents())) != 1:
            return "the copies differ"
        if any(os.path.exists(f"{name}.tmp") for name in array.copies):
            return "a draft stays"
    return None


def is_marked(content, after, outcome, began):
    """Whether a copy is the table that was loaded, with the marks of what was printed."""
    if after is None or (after.kind, after.seed, after.columns) != (content.kind, content.seed, content.columns):
        return False
    if len(after.marks) != len(content.marks):
        return False
    kinds = {}
    for line in outcome.out.splitlines():
        if not line.startswith("scrub: "):
            kinds.setdefault(int(line.split()[1]), []).append(line.split()[0])
    # Where a line could not be printed, any finding may be missing.
    is_told = outcome.hit is None or not outcome.hit.path.endswith("/out")
    for stripe, (mark, found) in enumerate(zip(content.marks, after.marks)):
        wanted = [mark]
        if content.is_checked(stripe):
            known = [kinds.get(stripe, [])] + ([] if is_told else [["changed-block"], ["silent"]])
            wanted = [mark_after(mark, kind, now) for kind in known for now in range(began, int(time.time()) + 1)]
        if found not in wanted:
            return False
    return True
