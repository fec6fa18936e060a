"""The proved programs for the present sources: those that were built, or the release's. A program is run only if its
bytes have the sum that is kept beside it."""

import hashlib
import os

from tool.refusal import Refusal, read


def cache():
    """Returns the user's cache folder. A path that isn't whole doesn't count."""
    given = os.environ.get("XDG_CACHE_HOME", "")
    return given if given.startswith("/") else os.path.expanduser("~/.cache")


TOP = os.path.dirname(os.path.dirname(os.path.dirname(os.path.realpath(__file__))))
# The command that users call.
FRONT = f"{TOP}/bin/cabal-plan"
# The proved programs, each with its crate.
PLANNER, MODERN = "cabal-plan", "modern-headers"
CRATES = {PLANNER: "cabal_plan", MODERN: "modern_headers"}
# Outside the checkout: checkouts of the same sources share it, and the gate doesn't find it.
OUT = f"{cache()}/cabal-plan"
# The list of an installation, which has no sources; its programs are those beside it.
INSTALLED = f"{TOP}/installed.txt"
# The programs of the last release, for x86-64 Linux, and the sums of their sources.
DIST = f"{TOP}/dist"
RELEASED_SOURCES = f"{DIST}/sources.sha256"
# What ends the name of the file with the sum of a program.
SUM = ".sha256"
# The folders of a crate that have its sources, with the end of the names of these files.
SOURCES = {"src": ".rt", "specs": ".antt", "proofs": ".antt"}


def table(top=TOP):
    """Returns for each crate of a repository the crates that it uses, by crates.txt."""
    with open(f"{top}/crates.txt", encoding="utf-8") as lines:
        said = [line.split(":", 1) for line in lines if ":" in line and not line.startswith("#")]
    return {crate.strip(): words.split() for crate, words in said}


def below(crate, known, found):
    """Adds the crate, with the crates that it uses, behind those below it."""
    if crate not in found:
        for it in known[crate]:
            if it in known:
                below(it, known, found)
        found[crate] = known[crate]
    return found


def is_module(name):
    """Returns whether a module may be called so. Editors leave other files beside the sources."""
    return name[:1] not in ("", "-") and name.isascii() and name.replace("_", "a").replace("-", "a").isalnum()


def paths_of(crates):
    """Returns the paths of the sources of crates, relative to the top."""
    found = ["HANDLES"]
    for crate in crates:
        for part, end in SOURCES.items():
            for at, folders, names in os.walk(f"{TOP}/crates/{crate}/{part}"):
                folders[:] = [it for it in folders if not it.startswith(".")]
                found += [f"{at}/{it}"[len(TOP) + 1 :] for it in names if it.endswith(end) and is_module(it[: -len(end)])]
    return sorted(found)


class Sources:
    """The sources of a program as they stand now: its name, its crate, the crates that it has, each with those that it
    uses, and the paths of their files."""

    def __init__(self, name):
        self.name, self.crate = name, CRATES[name]
        self.crates = below(self.crate, table(), {})
        self.paths = paths_of(self.crates)

    def sum(self, top=TOP):
        """Returns the sum of the sources in a folder, with the table of crates."""
        total = hashlib.sha256(repr(self.crates).encode())
        for path in self.paths:
            content = read(f"{top}/{path}")
            total.update(f"{path}\0{len(content)}\0".encode())
            total.update(content)
        return total.hexdigest()


def words_in(path):
    """Returns the words of each line of a small file, or none if it can't be read."""
    try:
        with open(path, encoding="utf-8") as file:
            return [line.split() for line in file.read(4096).splitlines()]
    except (OSError, UnicodeDecodeError):
        return []


def first_word(path):
    """Returns the first word of a file, or none."""
    return next((words[0] for words in words_in(path) if words), None)


def released(name):
    """Returns the path of a program of the release."""
    return f"{DIST}/{name}"


def checked(path):
    """Returns the path of a program, and refuses one whose bytes don't have the sum beside it."""
    try:
        handle = os.open(path, os.O_RDONLY | os.O_NOFOLLOW | os.O_NONBLOCK | os.O_CLOEXEC)
        with open(handle, "rb") as file:
            found = hashlib.sha256(file.read()).hexdigest()
    except OSError as error:
        raise Refusal(f"{path} can't be read: {error.strerror}") from error
    if found != first_word(f"{path}{SUM}"):
        raise Refusal(f"{path} isn't the program whose sum {path}{SUM} has: it isn't run; take both anew (git checkout, or bin/release)")
    return path


def release():
    """Returns the name of the release."""
    return first_word(f"{DIST}/VERSION") or "unknown"


def released_sum(crate):
    """Returns the sum of the sources of which the release's program of a crate was built, or none."""
    return next((words[0] for words in words_in(RELEASED_SOURCES) if words[-1:] == [crate]), None)


def built_program(name=PLANNER):
    """Returns the program of this name for the present sources: the one that was built, or else the release's if it has
    the same sources. If there is none, the program is built first. An installed tool has the one beside it."""
    if os.path.isfile(INSTALLED):
        return checked(released(name))
    sources = Sources(name)
    total = sources.sum()
    # A program's name has the sum of its sources, and the file appears whole: nobody sees a part of it, or another's.
    program = f"{OUT}/{sources.crate}-{total}"
    if os.access(f"{program}{SUM}", os.R_OK):
        return checked(program)
    if released_sum(sources.crate) == total and os.uname().machine == "x86_64":
        return checked(released(name))
    if not OUT.startswith("/"):
        raise Refusal("there is no home folder, and nowhere to build the program: set HOME, or XDG_CACHE_HOME")
    from tool.build import build

    build(program, sources)
    return checked(program)
