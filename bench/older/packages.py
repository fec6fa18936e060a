"""Files and what stands in for them, as Cabal reads both. In: the files, and the answers of a rewriter. Out: rows of what differs."""

import collections

from older.differences import blanked, differences, is_unseen
from older.rewriter import Refused
from older.rows import class_of, class_of_error, error_of

ROUNDS = 8


def settled(cabal, files):
    """Returns what Cabal reads of each file, without the fields that planning doesn't see and Cabal refuses; and the names of these."""
    found, left, unseen = {}, dict(files), collections.defaultdict(set)
    for _ in range(ROUNDS):
        again = {}
        for path, it in cabal.parsed(left).items():
            found[path] = it
            if "errors" in it and "elements" in it:
                content, names = blanked(left[path], it)
                unseen[path] |= names
                if content is not None and content != left[path]:
                    again[path] = content
        left = again
        if not left:
            break
    return found, unseen


def compare(cabal, files, answers, rows):
    """Compares each file with its answer."""
    before, unseen = settled(cabal, files)
    after, changed = settled(cabal, {path: it for path, it in answers.items() if not isinstance(it, Refused)})
    for path in files:
        for name in unseen[path]:
            rows.note(f"a field that planning doesn't see, which Cabal refuses before: {name}")
        for name in changed[path] - unseen[path]:
            rows.note(f"a field that planning doesn't see, which Cabal refuses after alone: {name}")
        if isinstance(answers[path], Refused):
            refused(path, before[path], answers[path], rows)
        else:
            rewritten(path, before[path], after[path], rows)


def refused(path, before, answer, rows):
    """Compares a file with its refusal."""
    if "package" in before:
        rows.add(path, "refusal", "read", f"refused: {answer.cause}, line {answer.line}", f"read by Cabal, refused here: {class_of(answer.cause)}")
    else:
        rows.note("refused by both")


def rewritten(path, before, after, rows):
    """Compares a file with what stands in for it."""
    if "package" in before and "package" in after:
        found = list(differences(before["package"], after["package"]))
        rows.note("read, and different" if found else "read, and the same")
        for what, old, new in found:
            rows.add(path, what, old, new, f"differs: {what}")
    elif "package" in before:
        rows.add(path, "refusal after", "read", error_of(after), f"read by Cabal, rewritten to a wrong file: {class_of_error(after)}")
    elif "package" in after and is_unseen(before):
        rows.note("refused by Cabal for a field that planning doesn't see")
    elif "package" in after:
        rows.add(path, "refusal", error_of(before), "read", f"refused by Cabal, rewritten to a readable file: {class_of_error(before)}")
    else:
        rows.note("refused by Cabal, before and after")


__all__ = ["compare"]
