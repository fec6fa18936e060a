"""Reads the parts of a project on the packages that it needs.

Input: its folder. Output: its project files, its local `.cabal` files by the planner's rules, and the names of
`extra-packages`. For these fields under all conditions count; `holding` is for those under conditions that hold. It
leaves refusals to the planner."""

import functools
import os
import re

from tool.folder import conditions
from tool.elements import Field, Misread, elements, walk
from tool.folder.patterns import Entries
from tool.input import content, decoded
from tool.refusal import Refusal

FILES = ("cabal.project", "cabal.project.freeze", "cabal.project.local")
REFUSED = re.compile(r"^[/~]|\*\*|[{}]|://|(^|/)\.\.(/|$)")


def fields(folder, name):
    """Returns the values of all fields of this name in the project files, each as one text."""
    return [it.text() for file in FILES for it in walk(read_elements(folder, file)) if isinstance(it, Field) and it.name == name]


def holding(folder, name, platform):
    """Returns the values of the fields of this name that stand under no condition, or under one that holds."""
    return [it.text() for file in FILES for it in kept(read_elements(folder, file), platform) if it.name == name]


def kept(items, platform):
    """Yields the fields of elements outside of sections, except those in branches that don't hold for certain."""
    is_open = False
    for it in items:
        if isinstance(it, Field):
            yield it
            continue
        if it.name == "if":
            is_open = True
        if it.name not in ("if", "elif", "else") or not is_open:
            continue
        holds = True if it.name == "else" else conditions.value(it.args, platform)
        if holds:
            yield from kept(it.items, platform)
        is_open = holds is False


@functools.lru_cache(maxsize=None)
def read_elements(folder, file):
    """Returns the elements of a project file, or none if it is missing."""
    path = os.path.join(folder, file)
    if not os.path.exists(path):
        return []
    try:
        return elements(decoded(content(path)))
    except Misread as error:
        raise Refusal(f"{file} can't be read: {error}") from error


def of_entry(folder, entry):
    """Returns the `.cabal` files of an entry."""
    return Entries(folder).files(entry)


def local_files(folder):
    """Returns the local `.cabal` files, relative to the folder."""
    has_project = os.path.isfile(os.path.join(folder, "cabal.project"))
    texts = fields(folder, "packages") + fields(folder, "optional-packages") + ["./*.cabal"] * (not has_project)
    written = dict.fromkeys(it for text in texts for it in re.split(r"[,\s]+", text) if it and not REFUSED.search(it))
    entries = Entries(folder)
    found = sorted({path for it in written for path in entries.files(it)})
    if not found:
        raise Refusal(f"no local package is here: run this in the folder of a package or project{', or correct packages in cabal.project' * has_project}")
    return found


def extra_names(folder):
    """Returns the names of `extra-packages`."""
    entries = [it.strip() for text in fields(folder, "extra-packages") for it in text.split(",")]
    return {it[0] for it in (re.match(r"[A-Za-z0-9-]+", entry) for entry in entries) if it}


def repository(folder):
    """Returns the outermost folder at or above this one that has a repository of git, or none."""
    found, at = None, os.path.realpath(folder)
    while True:
        if os.path.lexists(f"{at}/.git"):
            found = at
        if at == os.path.dirname(at):
            return found
        at = os.path.dirname(at)
