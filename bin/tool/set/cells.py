"""The cells of a set: each target with each compiler and setting that is asked.

Input: a form, and what cells share. Output: cells, each with a key: the digest of all that it reads, and of the program."""

import hashlib

from tool.set.bounds import asked as asked_bounds
from tool.set.stock import Compiler, Reach, Stock
from tool.set.targets import LOCAL, Chosen, Files

# What a change of the records' form raises.
EDITION = 1


class Cell:
    """A cell: its target, compiler and setting, its key, and the bound that it asks for."""

    __slots__ = ("target", "compiler", "setting", "key", "bound")

    def __init__(self, target, compiler, setting, key, bound=None):
        self.target, self.compiler, self.setting, self.key, self.bound = target, compiler, setting, key, bound

    def is_wanted(self):
        return self.target.is_wanted and self.compiler.is_wanted and self.setting.is_wanted

    def name(self):
        return f"{self.target.called} {self.compiler.name} {self.setting.name}"


class Cells:
    """All cells of a form. They are made one after the other, so that their number costs little."""

    def __init__(self, form, source, program, room, say):
        self.form, self.room, self.program = form, room, program
        with open(program, "rb") as file:
            self.program_digest = hashlib.sha256(file.read()).digest()
        self.stock = Stock(source, room, form.newest, form.is_rewritten)
        self.compilers = {it: Compiler(it, number, form, room, say) for number, it in enumerate(form.compilers)}
        self.targets = Chosen(form, self.stock).targets()
        self.numbers = {it: number for number, it in enumerate(self.targets)}
        self.files, self.reaches = {}, {}

    def files_of(self, target):
        """Returns the files of a target. Those of the last one are kept."""
        if target not in self.files:
            self.reaches = {}
            self.files = {target: Files(target, self.numbers[target], self.form, self.stock, self.room)}
        return self.files[target]

    def reach(self, target, compiler):
        """Returns what a target reaches with a compiler. Those of the last target are kept."""
        files = self.files_of(target)
        if compiler not in self.reaches:
            self.reaches[compiler] = Reach(self.stock, compiler, files.roots, files.own)
        return self.reaches[compiler]

    def of_target(self, target):
        """Yields the cells of a target."""
        files = self.files_of(target)
        for of, setting in self.form.pairs:
            compiler = self.compilers[of]
            reach = self.reach(target, compiler)
            settings = [(setting, None), *(asked_bounds(files, self.stock, compiler, setting) if target.has_bounds else ())]
            for it, bound in settings:
                yield Cell(target, compiler, it, self.key(files, reach, (target, compiler, it)), bound)

    def all(self):
        """Yields all cells."""
        for it in self.targets:
            yield from self.of_target(it)

    def key(self, files, reach, of):
        """Returns the key of a cell."""
        target, compiler, setting = of
        told = (EDITION, target.called, compiler.name, compiler.words, setting.name, setting.lines, setting.words, self.form.is_shrunk)
        return hashlib.sha256(repr(told).encode("utf-8", "surrogateescape") + self.program_digest + files.digest + compiler.digest + reach.digest).digest()

    def task(self, cell):
        """Returns what a run of a cell needs, as an object for a worker: places in the room, texts, and words."""
        files, setting = self.files_of(cell.target), cell.setting
        local = files.local.decode("utf-8", "surrogateescape")
        lines = "".join(f"{it}\n" for it in setting.lines)
        local += ("\n" if lines and local and not local.endswith("\n") else "") + lines
        return {
            **facts(cell, self.form.path),
            "links": {**files.links, "installed": cell.compiler.path},
            "index": self.reach(cell.target, cell.compiler).told(),
            "texts": {LOCAL: local} if local else {},
            "planning": [*cell.compiler.words, *setting.words],
            "shrink": self.form.is_shrunk,
        }


def facts(cell, path):
    """Returns what a record says of a cell beside its result."""
    return {
        "key": cell.key.hex(), "target": cell.target.called, "name": cell.target.package, "version": cell.target.version,
        "compiler": cell.compiler.name, "setting": cell.setting.name, "wanted": cell.is_wanted(),
        "words": ["cabal-plan", "set", path, f"--cell={cell.name()}"],
    }  # fmt: skip
