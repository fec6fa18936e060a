"""Reads the files of a project, an index and a compiler, as far as the program reads them: regular files of at most 1 MiB.

Input: a path. Output: its bytes, or a refusal. A pipe or a device is neither waited for nor opened."""

import os
import re
import stat

from tool.refusal import Refusal, shown

# The most bytes of a file, and the most files and bytes of all of them, that the program reads.
MOST, MOST_FILES, MOST_BYTES = 1_048_576, 20_000, 268_435_456
# The headers that the planner reads, and a file that begins with one.
READ = ("2.4", "3.0", "3.4")
HEADER = re.compile(rb"\A(?:\xef\xbb\xbf)?(?:[ \t]*(?:--[^\n]*)?\r?\n)*[ \t]*cabal-version[ \t]*:[ \t]*(\S+)[ \t]*\r?(?:\n|\Z)(?=\S|\s*\Z|[ \t]*(?:--|\r?\n))", re.I)


def front(path):
    """Returns the bytes of a regular file, of a larger one than the program reads only the first."""
    try:
        if not stat.S_ISREG(os.stat(path).st_mode):
            raise Refusal(f"{shown(path)} is no regular file, and isn't read")
        with os.fdopen(os.open(path, os.O_RDONLY | os.O_NONBLOCK | os.O_CLOEXEC), "rb", buffering=0) as file:
            if not stat.S_ISREG(os.fstat(file.fileno()).st_mode):
                raise Refusal(f"{shown(path)} is no regular file, and isn't read")
            return whole(file, MOST + 1)
    except (OSError, ValueError) as error:
        raise Refusal(f"{shown(path)} can't be read: {getattr(error, 'strerror', error)}") from error


def whole(file, most):
    """Returns the bytes of an open file, at most so many."""
    found = []
    while most > 0:
        data = file.read(most)
        if not data:
            break
        found.append(data)
        most -= len(data)
    return b"".join(found)


def content(path):
    """Returns the bytes of a file, and refuses one that is too large for the program."""
    data = front(path)
    if len(data) > MOST:
        raise Refusal(f"{shown(path)} has more than {MOST} bytes, and the planner reads no more")
    return data


def decoded(data):
    """Returns the text of a file: UTF-8, or else Latin-1."""
    try:
        return data.decode("utf-8")
    except UnicodeDecodeError:
        return data.decode("latin-1")


def is_read(data):
    """Returns whether the planner reads the header of a file."""
    found = HEADER.match(data)
    return bool(found) and found[1].decode("latin-1") in READ
