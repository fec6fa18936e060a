"""Reads the small text files of a folder within the program's own limits: regular files of at most 1,048,576 bytes.

In: a folder, and paths below it. Out: texts and elements, or none. Whether a file can be used is for the program to say."""

import functools
import os
import stat

from tool.elements import Misread, elements
from tool.refusal import escaped

LARGEST, WIDEST = 1_048_576, 1000
OPEN = os.O_RDONLY | os.O_NONBLOCK | os.O_CLOEXEC


def data_of(path):
    """Returns the bytes of a regular file, or none if it is missing, too large or something else. It never waits."""
    try:
        handle = os.open(path, OPEN)
    except (OSError, ValueError):
        return None
    try:
        of = os.fstat(handle)
        if not stat.S_ISREG(of.st_mode) or of.st_size > LARGEST:
            return None
        with open(handle, "rb", closefd=False) as file:
            found = file.read(LARGEST + 1)
        return found if len(found) <= LARGEST else None
    except OSError:
        return None
    finally:
        os.close(handle)


def is_other(path):
    """Returns whether there is something at a path that is no regular file and no folder."""
    try:
        mode = os.stat(path).st_mode
    except (OSError, ValueError):
        return False
    return not stat.S_ISREG(mode) and not stat.S_ISDIR(mode)


def text_of(path):
    """Returns the text of a file, or none. Bytes that aren't UTF-8 are replaced."""
    found = data_of(path)
    return None if found is None else found.decode("utf-8", "replace")


@functools.lru_cache(maxsize=4)
def read(text):
    """Returns the elements of a text, or why it can't be read. The elements of the last texts are kept: don't change them."""
    try:
        return elements(text), None
    except Misread as error:
        return [], error


def items_of(text):
    """Returns the elements of a text; of one that can't be read, none."""
    return read(text or "")[0]


def listed(path):
    """Returns the names in a folder, or none if it isn't there."""
    try:
        return sorted(os.listdir(path))
    except (OSError, ValueError):
        return []


def some(of, most=6):
    """Returns a list in words, with the number of those that are left out."""
    of = list(of)
    told = of if len(of) <= most else [*of[: most - 1], f"{len(of) - most + 1} more"]
    return told[0] if len(told) == 1 else f"{', '.join(told[:-1])} and {told[-1]}" if told else "nothing"


def tell(lines):
    """Prints lines, cut where they are long. Nothing from a file moves the cursor or begins a line of its own."""
    for line in lines:
        told = escaped(line[: WIDEST + 1])
        print(told if len(told) <= WIDEST else f"{told[:WIDEST]}..")
