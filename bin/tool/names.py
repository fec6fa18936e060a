"""Names of files out of texts from outside.

Input: a name that an index, a record or a project gives. Output: the same name, if a package, version or unit may be called
so. None of these has a slash, or is `.` or `..`."""

import functools
import re

from tool.refusal import Refusal, shown

NAMES = {
    "package": re.compile(r"[A-Za-z0-9]+(?:-[A-Za-z0-9]+)*"),
    "version": re.compile(r"(?:0|[1-9][0-9]{0,8})(?:\.(?:0|[1-9][0-9]{0,8}))*"),
    "unit": re.compile(r"[A-Za-z0-9][A-Za-z0-9._+-]*"),
}
# The most bytes of a name: a file's name has 255, and the tool puts an end and a number around it.
LONGEST = 230


def is_name(text, kind):
    """Returns whether a package, version or unit may be called so."""
    return len(text) <= LONGEST and fits(text, kind)


@functools.lru_cache(maxsize=1 << 14)
def fits(text, kind):
    """Returns whether a text that isn't too long is such a name. An index has the same names many times."""
    return NAMES[kind].fullmatch(text) is not None


def file_name(text, kind, where):
    """Returns the name, or refuses it. `where` says where it was found."""
    if not is_name(text, kind):
        raise Refusal(f"{where} names a {kind} '{shown(text)}', and no {kind} may be called so")
    return text
