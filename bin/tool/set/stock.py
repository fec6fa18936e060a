"""What all cells share: one index, and one folder of records for each compiler, in the room of a run.

Input: an index, and compilers. Output: copies of the files that targets can reach, with the digest of each name. So a cell
reads exactly the bytes whose digest is in its key, whatever happens to the sources meanwhile."""

import hashlib
import os
import sys

from tool.folder.closure import Closure, of_units
from tool.folder.compiler import Choice, compiler as asked_compiler
from tool.folder.index import by_number
from tool.folder.records import END, Record, records
from tool.folder.repositories import Merged
from tool.input import MOST_BYTES, MOST_FILES, content, is_read
from tool.names import file_name, is_name
from tool.refusal import Refusal, shown

INDEX, RECORDS = "index", "records"


def digest(data):
    return hashlib.sha256(data).digest()


def names_of(source):
    """Returns the names of an index."""
    if isinstance(source, Merged):
        return sorted({name for it in source.sources for name in names_of(it)})
    found = next(getattr(source, it) for it in ("names", "places", "found") if hasattr(source, it))
    return sorted(it for it in found if source.versions(it))


class Name:
    """A name of the index: the versions that were kept, the number of their bytes, their digest, and the names that they
    mention: all, and those outside of test suites and benchmarks."""

    def __init__(self, versions, size, total, full, lean):
        self.versions, self.size, self.digest = versions, size, total
        self.full = tuple(map(sys.intern, sorted(full)))
        self.lean = self.full if full == lean else tuple(map(sys.intern, sorted(lean)))


class Stock:
    """The index of a run. A name is read, and copied into the room, when a target first reaches it."""

    def __init__(self, source, room, newest, is_rewritten):
        self.source, self.room, self.names, self.held = source, room, {}, {}
        self.closure = Closure(self, [], None if is_rewritten else is_read, newest)
        room.folder(INDEX)

    def versions(self, name):
        """Returns the versions of a name, for the closure."""
        return self.source.versions(name) if is_name(name, "package") else []

    def data(self, name, version):
        """Returns the bytes of a version, and keeps them until its name is copied."""
        self.held[version] = self.source.data(name, version)
        return self.held[version]

    def name(self, name):
        """Returns a name of the index."""
        if name not in self.names:
            self.closure.read(name)
            of = {it: getattr(self.closure, it).pop(name) for it in ("versions", "sizes", "full", "lean")}
            self.names[name] = Name(of["versions"], of["sizes"], self.copied(name, of["versions"]), of["full"], of["lean"])
            self.held.clear()
        return self.names[name]

    def copied(self, name, versions):
        """Copies the versions of a name, and returns their digest."""
        total = hashlib.sha256()
        for it in versions:
            data = self.held[it] if it in self.held else self.source.data(name, it)
            self.room.write(f"{INDEX}/{file_name(name, 'package', self.source.path)}/{file_name(it, 'version', self.source.path)}/{name}.cabal", data)
            total.update(f"{it} ".encode() + digest(data))
        return total.digest()

    def latest(self, name):
        """Returns the latest version of a name of the source, or none."""
        return max(self.versions(name), key=by_number, default=None)


class Compiler:
    """A compiler of a run: its name, its words, the path of its records in the room and their digest; for each package the
    packages that its units need, and its versions."""

    def __init__(self, of, number, form, room, say):
        self.name, self.is_wanted, self.words, self.path = of.name, of.is_wanted, of.words, f"{RECORDS}/{number}"
        found = self.found(of, form, say)
        room.folder(self.path)
        total = hashlib.sha256()
        for name, (_, data) in sorted(found.items()):
            room.write(f"{self.path}/{name}", data)
            total.update(name.encode("utf-8", "surrogateescape") + b"\0" + digest(data))
        self.digest, units = total.digest(), [it for it, _ in found.values()]
        self.units = {name: tuple(sorted(needs)) for name, needs in of_units(units).items() if name}
        self.count, self.versions = len(found), {}
        for it, data in found.values():
            self.note(it.name, data)

    def note(self, name, data):
        """Keeps the version of a record."""
        line = next((it for it in data.decode("utf-8", "replace").split("\n") if it.lower().startswith("version:")), "")
        version = line.partition(":")[2].strip()
        if name and is_name(version, "version"):
            self.versions.setdefault(name, set()).add(version)

    def found(self, of, form, say):
        """Returns the records by the name of their files, each with its bytes."""
        if of.ghc is not None:
            return self.of_ghc(of, form, say)
        folder = form.place(of.records)
        try:
            names = sorted(it for it in os.listdir(folder) if it.endswith(END))
        except OSError as error:
            raise Refusal(f"{of.where}records: {shown(folder)} can't be read: {error.strerror}") from error
        texts = {it: content(f"{folder}/{it}") for it in names}
        return {name: (Record(f"{folder}/{name}", data, f"{folder}/{name}"), data) for name, data in texts.items()}

    def of_ghc(self, of, form, say):
        """Returns the records of a ghc, and takes its words."""
        ghc = asked_compiler(Choice(form.place(of.ghc) if "/" in of.ghc else of.ghc, None), say)
        self.words = ghc.words()
        found, told = records(ghc, of.has_store)
        for it in told:
            say(it)
        return {f"{at:06}-{it.stem}{END}": (it, content(it.path) if it.path else it.data) for at, it in enumerate(found)}


class Reach:
    """What a target reaches with a compiler: the digest of the names, and whether what only test suites and benchmarks of
    the index mention has to be left out, since all would be too much for the program."""

    def __init__(self, stock, compiler, roots, own):
        self.stock, self.units, self.own, self.records = stock, compiler.units, own, compiler.count
        self.names = self.spread(roots, lambda it: it.full)
        self.is_lean = self.is_too_much()
        if self.is_lean:
            self.names = self.spread(roots, lambda it: it.lean)
        total = hashlib.sha256(b"lean" if self.is_lean else b"full")
        for name in sorted(self.names):
            of = stock.names.get(name)
            if of and of.versions and name not in own:
                total.update(name.encode() + b"\0" + of.digest)
        self.digest = total.digest()

    def told(self):
        """Returns the names to which a cell has links, or none where it has one to the whole index."""
        return sorted(it for it in self.names if it not in self.own and self.stock.names[it].versions) if self.is_lean else None

    def spread(self, roots, mentions):
        """Returns all names that mentions and records reach. Local names aren't looked up in the index."""
        found = rest = set(roots)
        while rest:
            of = [mentions(self.stock.name(it)) for it in rest - self.own]
            rest = set().union(*of, *(self.units.get(it, ()) for it in rest)) - found
            found = found | rest
        return found

    def is_too_much(self):
        """Returns whether the program would refuse the files as too many."""
        of = [self.stock.names[it] for it in self.names if it not in self.own]
        return self.records + sum(len(it.versions) for it in of) > MOST_FILES or sum(it.size for it in of) > MOST_BYTES
