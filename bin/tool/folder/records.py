"""Finds the records of installed units.

Input: a compiler. Output: the records of its global database, and then those of cabal's store for it. A record has its
unit, its package and the units that it needs, and a path to link to, or its bytes if it is from a dump."""

import hashlib
import os
import re

from tool.folder.compiler import answer
from tool.names import file_name
from tool.input import content
from tool.refusal import Refusal, shown

ID = re.compile(rb"(?im)^id[ \t]*:\s*(\S+)")
NAME = re.compile(rb"(?im)^name[ \t]*:\s*(\S+)")
END = ".conf"
DEPENDS = re.compile(rb"(?im)^depends[ \t]*:(.*(?:\n[ \t]+.*)*)")


class Record:
    """A record: its path, or its own bytes; its unit, its package, the units that it needs, and its file's name without
    the end. Its names are those of units and packages, or missing."""

    def __init__(self, path, data, where):
        self.path, self.data = path, None if path else data
        self.unit, self.name = self.value(ID, data, "unit", where), self.value(NAME, data, "package", where)
        self.needs = [it.decode("utf-8", "replace") for found in DEPENDS.findall(data) for it in re.split(rb"[\s,]+", found) if it]
        self.stem = file_name(os.path.basename(path)[: -len(END)], "unit", path) if path else self.unit or "unnamed"

    @staticmethod
    def value(field, data, kind, where):
        """Returns the name in a field of a record, or none if it has no such field."""
        found = field.search(data)
        return file_name(found[1].decode("utf-8", "replace"), kind, where) if found else None

    def key(self):
        """Returns a key of what is written for this record: a link to its path, or its bytes."""
        if self.data is not None:
            return f"{self.unit} {len(self.data)} {hash_of(self.data)}"
        return f"{self.unit} {self.path}"


def hash_of(data):
    """Returns the first digits of the SHA-256 of bytes."""
    return hashlib.sha256(data).hexdigest()[:24]


def homes():
    """Returns the folders where cabal may keep its store."""
    home = os.path.expanduser("~")
    state = os.environ.get("XDG_STATE_HOME") or f"{home}/.local/state"
    given = [os.environ["CABAL_DIR"]] if os.environ.get("CABAL_DIR") else []
    return list(dict.fromkeys([*given, f"{home}/.cabal", f"{state}/cabal"]))


def stores(version):
    """Returns the store's databases for a compiler. A folder may have more behind the version and a hyphen."""
    found = []
    for store in (f"{home}/store" for home in homes()):
        names = sorted(os.listdir(store)) if os.path.isdir(store) else []
        fit = [it for it in names if it == f"ghc-{version}" or it.startswith(f"ghc-{version}-")]
        found += [f"{store}/{it}/package.db" for it in fit if os.path.isdir(f"{store}/{it}/package.db")]
    return found


def records_of(database, ghc):
    """Returns the records of a database: those of its files, or without files those that ghc-pkg prints. A file whose
    name begins with a dot is an editor's."""
    names = sorted(it for it in os.listdir(database) if it.endswith(END) and not it.startswith("."))
    if names:
        return [Record(f"{database}/{it}", content(f"{database}/{it}"), f"{database}/{it}") for it in names]
    program = ghc.ghc_pkg()
    if not program:
        raise Refusal(f"{database} has no files of records, and no ghc-pkg stands beside {ghc.path}, which would say what it has")
    dump = answer([program, "dump", "--global", "--no-user-package-db", f"--global-package-db={database}"])
    found = [it.strip("\n").encode() + b"\n" for it in re.split(r"(?m)^---[ \t]*$", dump) if it.strip()]
    return [Record(None, it, f"{program} dump") for it in found]


def records(ghc, with_store):
    """Returns the records, each unit once, and lines to print about them."""
    if not os.path.isdir(ghc.database):
        raise Refusal(f"{ghc.path} names a global database that isn't there: {ghc.database}")
    found, told = {}, []
    for database in [ghc.database] + (stores(ghc.version) if with_store else []):
        there = records_of(database, ghc)
        known = {it.unit for it in found.values() if it.unit}
        again = [it for it in there if it.unit in known]
        found.update({it.unit or it.path or "": it for it in there if it.unit not in known})
        told.append(f"{database}: {len(there)} records")
        told += [f"{shown(it.unit)} stands in {database} too: the record of the earlier database counts" for it in again]
    unnamed = [it for it in found.values() if not it.unit or not it.name]
    told += [f"{it.path or 'a record of the dump'} has no id or no name, and the planner will refuse it" for it in unnamed]
    return list(found.values()), told
