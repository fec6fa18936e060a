"""What a comparison prints. In: differences with their causes. Out: a row for each, and counts at the end. Text of files is escaped."""

import collections
import json
import os
import re

LONGEST = 160


def told(value):
    """Returns a value as one line of ASCII, cut where it is long."""
    text = json.dumps(value if isinstance(value, str) else json.dumps(value))[1:-1]
    return text if len(text) <= LONGEST else text[:LONGEST] + ".."


def class_of(text):
    """Returns an error's text without names and numbers, so that the same errors count as one."""
    return " ".join(re.sub(r"'[^']*'|\"[^\"]*\"|\d+(\.\d+)*", "_", text).split())[:70]


def error_of(parsed):
    """Returns the first error of what Cabal reads."""
    if "failed" in parsed:
        return f"failed: {parsed['failed']}"
    line, text = parsed["misread"] if "misread" in parsed else parsed["errors"][0]
    return f"line {line}: {' '.join(text.split())}"


def class_of_error(parsed):
    """Returns the class of the first error of what Cabal reads."""
    return "its layout" if "misread" in parsed else class_of(error_of(parsed).partition(": ")[2])


class Rows:
    """The rows that were printed, their counts by cause, and the counts of what is alike."""

    def __init__(self, prints, known=()):
        self.prints, self.known, self.causes, self.notes = prints, known, collections.Counter(), collections.Counter()

    def add(self, path, what, before, after, cause):
        if os.path.basename(os.path.dirname(path)) in self.known:
            self.note("a difference that docs/OLDER.md has")
            return
        self.causes[cause] += 1
        if self.prints:
            print("\t".join(told(it) for it in (path, what, before, after)))

    def note(self, kind):
        self.notes[kind] += 1

    def close(self):
        for title, counts in (("Alike or left out", self.notes), ("Differences by cause", self.causes)):
            print(f"\n{title}: {sum(counts.values())}")
            for cause, count in sorted(counts.items(), key=lambda it: (-it[1], it[0])):
                print(f"  {count:>6} {told(cause)}")


__all__ = ["Rows", "class_of", "class_of_error", "error_of", "told"]
