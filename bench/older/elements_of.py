"""Elements of files, as Cabal and as another reader have them. In: the files, and the reader. Out: a row for the first difference of each."""

import json
import subprocess

from tool.elements import Misread, Section, elements
from tool.input import decoded
from older.rewriter import BadOutput
from older.rows import class_of, error_of
from older.tokens import flat, plain

PARTS = ("field", "section", "values", "args", "line")


def formed(it):
    """Returns an element of the reader in Python in the form of `Parsed.hs`."""
    if isinstance(it, Section):
        return {"section": it.name, "line": it.line, "args": it.args, "items": [formed(inner) for inner in it.items]}
    return {"field": it.name, "line": it.line, "values": it.values}


def in_python(content):
    try:
        return {"elements": [formed(it) for it in elements(decoded(content))]}
    except Misread as error:
        return {"refused": str(error)}


def read_by(program, files):
    """Returns what a reader gives for each file."""
    if program is None:
        return {path: in_python(content) for path, content in files.items()}
    ran = subprocess.run([program], input="".join(f"{path}\n" for path in files).encode(), stdout=subprocess.PIPE, check=True)
    found = [json.loads(line) for line in ran.stdout.decode().split("\n")[:-1]]
    if [it["path"] for it in found] != list(files):
        raise BadOutput(f"{program} answers for {len(found)} of {len(files)} files")
    return {it["path"]: it for it in found}


def is_utf8(content):
    try:
        content.decode("utf-8")
    except UnicodeDecodeError:
        return False
    return True


def first_difference(theirs, ours, has_utf8):
    """Returns what differs first between two lists of elements, with both sides, or none."""
    sides = [[(depth, {**it, "items": None}) for depth, it in flat(plain(it, has_utf8) for it in found)] for found in (theirs, ours)]
    for (depth, it), (other_depth, other) in zip(*sides):
        for what in PARTS:
            if it.get(what) != other.get(what):
                return what, it, other
        if depth != other_depth:
            return "depth", f"{depth}: line {it['line']}", f"{other_depth}: line {other['line']}"
    if len(sides[0]) != len(sides[1]):
        return "count of elements", len(sides[0]), len(sides[1])
    return None


def compare(cabal, files, program, rows):
    """Compares the elements of each file."""
    there, here = cabal.parsed(files), read_by(program, files)
    for path, content in files.items():
        ours, theirs = here[path], there[path]
        if "elements" in theirs and "elements" in ours:
            first = first_difference(theirs["elements"], ours["elements"], is_utf8(content))
            rows.note("read, and different" if first else "read, and the same")
            if first:
                rows.add(path, *first, f"differs: {first[0]}")
        elif "elements" in theirs:
            rows.add(path, "refusal", "read", str(ours["refused"]), f"read by Cabal, refused here: {class_of(str(ours['refused']))}")
        elif "elements" in ours:
            rows.add(path, "refusal", error_of(theirs), "read", "refused by Cabal, read here")
        else:
            rows.note("refused by both")


__all__ = ["compare"]
