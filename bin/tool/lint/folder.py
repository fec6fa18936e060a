"""The findings of a folder: of its files, its names, its folders and its compiler."""

import os
import stat
from itertools import islice

from tool.folder.project import FILES
from tool.lint.findings import Finding, Speller
from tool.lint.known import COMPILERS
from tool.lint.package import Package
from tool.lint.project import ProjectFile, of_names
from tool.refusal import UNPRINTABLE, shown
from tool.why.force import COMPILER
from tool.why.ranges import version
from tool.why.reasons import notes
from tool.why.texts import LARGEST, read

# The most findings of one file that are told.
MOST_FOUND = 5000


def findings(folder, with_folders=True):
    """Returns the findings of a folder by file and line, those on folders that are missing if asked for."""
    found, speller = [], Speller()
    for file, text in folder.project.texts.items():
        items, error = read(text)
        if error:
            found.append(Finding(file, error.line, "L303", f"this file can't be read: {error}"))
            continue
        of_file = list(islice((ProjectFile if file in FILES else Package)(file, items, text, speller).findings(), MOST_FOUND))
        found += of_file
        if len(of_file) == MOST_FOUND:
            found.append(Finding(file, of_file[-1].line, "L304", f"this file has {MOST_FOUND} findings and more: correct these first"))
    found += [*unread(folder), *odd_names(folder), *of_names(folder, speller), *optional(folder)]
    found += [*compiler(folder), *(Finding(it.split("`")[1], 1, "L302", it) for it in notes(folder) if with_folders)]
    places = {file: at for at, file in enumerate(folder.project.texts)}
    return sorted(found, key=lambda it: (places.get(it.file, len(places)), it.file, it.line))


def unread(folder):
    """Yields the files of the project that can't be read."""
    for path in dict.fromkeys([*folder.project.paths, *FILES]):
        if path in folder.project.texts or not os.path.lexists(f"{folder.folder}/{path}"):
            continue
        yield Finding(path, 1, "L303", f"this can't be read: {cause(f'{folder.folder}/{path}')}")


def cause(path):
    """Returns why a file isn't read."""
    try:
        of = os.stat(path)
    except OSError as error:
        return error.strerror
    if not stat.S_ISREG(of.st_mode):
        return "it is no regular file"
    return f"it has more than {LARGEST} bytes" if of.st_size > LARGEST else "it is unreadable"


def odd_names(folder):
    """Yields local files whose names forge lines of the text form."""
    for path in folder.project.paths:
        if UNPRINTABLE.search(path):
            yield Finding(path, 1, "L107", f"the name `{shown(path)}` has a character that forges lines or can't be printed: rename the file")


def optional(folder):
    """Yields entries of `optional-packages` that give no package."""
    for entry, setting, place, paths in folder.project.members:
        if setting is not None and setting.name == "optional-packages" and not paths:
            file, _, line = place.rpartition(":")
            yield Finding(file, int(line), "L108", f"`{shown(entry)}` of optional-packages gives no package, and has no effect")


def compiler(folder):
    """Yields a finding if the compiler of the plan isn't that of the records."""
    given = next((it.partition("=")[2] for it in folder.words if it.startswith("--compiler=")), None)
    name, _, number = (given or COMPILER).rpartition("-")
    if name.lower() != "ghc":
        return
    told = f"the plan is for {given or f'{COMPILER}, the default'}"
    records = [it for it in folder.units() if it.name == "ghc" and version(it.version)]
    if records and all(it.version != number for it in records):
        yield Finding(
            records[0].path, 1, "L301", f"these are the records of ghc {records[0].version}, and {told}: say --compiler=ghc-{records[0].version}"
        )
        return
    bases = [(it, COMPILERS.get((version(it.version) or ())[:2])) for it in folder.units() if it.name == "base" and not records]
    if bases and all(of and not f"{number}.".startswith(f"{of}.") for _, of in bases):
        one, of = bases[0]
        yield Finding(one.path, 1, "L301", f"base {one.version} comes with ghc {of}, and {told}: name yours, as --compiler=ghc-{of}.2")
