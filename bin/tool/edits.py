"""The wrong bodies of the crates, and the record of those that the prover refused: `out/mistakes.txt` has a line for each, with the date, the
prover's logic, the sum of the sources that were tried, and that of the edit."""

import contextlib
import functools
import hashlib
import os
import subprocess
import time

from tool import children, files
from tool.program import TOP, below, paths_of, table
from tool.refusal import Refusal, read

FOLDERS = ("must-fail", "mistakes")
RECORD = f"{TOP}/out/mistakes.txt"
DATE = "%Y-%m-%d"


def edits_of(crate):
    """Returns the edits of a crate: for each name its folder."""
    found = {}
    for folder in FOLDERS:
        at = f"{TOP}/crates/{crate}/{folder}"
        for name in sorted(os.listdir(at)) if os.path.isdir(at) else ():
            if not name.endswith(".edit"):
                raise Refusal(f"{at}/{name}: only edits stand here, NAME.edit")
            if name in found:
                raise Refusal(f"{crate} has two edits of the name {name}")
            found[name] = folder
    return found


def all_edits():
    """Returns the edits of all crates that have any."""
    found = {it: edits_of(it) for it in sorted(os.listdir(f"{TOP}/crates"))}
    return {crate: named for crate, named in found.items() if named}


@functools.lru_cache(maxsize=None)
def logic():
    """Returns the logic of the kit's prover: the word behind `logic` of `rt version`."""
    try:
        ran = children.run(["rt", "version"], stdin=subprocess.DEVNULL, stdout=subprocess.PIPE, text=True, errors="replace")
    except OSError as error:
        raise Refusal("the kit's command rt isn't found, and nothing is tried without it") from error
    words = ran.stdout.split()
    if ran.returncode or "logic" not in words[:-1]:
        raise Refusal("rt version doesn't say which logic the prover has")
    return words[words.index("logic") + 1]


@functools.lru_cache(maxsize=None)
def sum_of_file(path):
    return hashlib.sha256(read(path)).hexdigest()


@functools.lru_cache(maxsize=None)
def sum_of_crate(crate, top):
    """Returns the sum of the sources of a crate in a folder."""
    found = "".join(f"{path}\0{sum_of_file(f'{top}/{path}')}\0" for path in paths_of([crate]))
    return hashlib.sha256(found.encode()).hexdigest()


def sum_of_sources(crate, top):
    """Returns the sum of the sources, in a folder, of a crate and those below it: an edit may be refused by a contract of any of them."""
    crates = below(crate, table(top), {})
    return hashlib.sha256(repr([(it, used, sum_of_crate(it, top)) for it, used in crates.items()]).encode()).hexdigest()


def keys(edits, top=TOP, at=None):
    """Returns for each edit, by crate and name, what was tried: the logic, the sum of the sources and that of the edit. Input: the
    edits; the folder with the sources; there the folder of a crate that has its edits (none: the edit's own)."""
    found = {}
    for crate, named in edits.items():
        total = sum_of_sources(crate, top)
        for name, folder in named.items():
            found[crate, name] = logic(), total, sum_of_file(f"{top}/crates/{crate}/{at or folder}/{name}")
    return found


def recorded():
    """Returns what was refused, as `keys` says it, with the crate and the name. The remains of a torn line don't count."""
    lines = read(RECORD).decode("utf-8", "replace").split("\n")[:-1] if os.path.lexists(RECORD) else []
    return {tuple(words[1:]) for words in (line.split(" ") for line in lines) if len(words) == 6}


def unrefused(edits, of=None):
    """Returns those of the edits that the record doesn't have, with the present sources."""
    there = recorded()
    found = {}
    for (crate, name), key in (keys(edits) if of is None else of).items():
        if (*key, crate, name) not in there:
            found.setdefault(crate, {})[name] = edits[crate][name]
    return found


class Record:
    """The record, to which a run adds each refused edit at once."""

    def __enter__(self):
        with contextlib.suppress(FileExistsError):
            files.make_folder(os.path.dirname(RECORD))
        self.lines = files.Lines(RECORD)
        return self

    def add(self, crate, name, key):
        self.lines.append(f"{time.strftime(DATE, time.gmtime())} {' '.join(key)} {crate} {name}\n".encode())

    def __exit__(self, *_):
        self.lines.close()
