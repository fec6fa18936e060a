"""The project files with lines, and the local packages.

In: a folder. Out: the settings of `cabal.project`, `cabal.project.freeze` and `cabal.project.local`, each entry with its
file and line, and the descriptions of the local packages. Branches that don't hold on the platform are left out."""

import re

from tool.elements import Field, entries, names
from tool.folder import conditions
from tool.folder.project import FILES, REFUSED, of_entry
from tool.why.packages import Description
from tool.why.texts import items_of, text_of

SCOPE = re.compile(r"(any\.|setup\.|[A-Za-z0-9-]+:setup\.)?([A-Za-z0-9][A-Za-z0-9-]*)\s*(.*)", re.S)
FLAGS = re.compile(r"(?:[+-][\w-]+\s*)+")
RANGES = ("-any", "-none")
# The words that name all packages, and the key for entries that name no dependency.
EVERY, ANY = ("all", "true", "*"), "*"


class Setting:
    """A field of a project file: its file, its name, the field, and the section around it (its name and args)."""

    def __init__(self, file, field, section):
        self.file, self.name, self.field, self.section = file, field.name, field, section


class Constraint:
    """An entry of `constraints`, or what says the same: where it stands, the scope, the package, and what is left of it."""

    def __init__(self, text, where, told, field=None):
        self.text, (self.file, self.line), self.field, self.is_asked = text, where, field, False
        self.scope, self.name, self.rest = told[1] or "", told[2], " ".join(told[3].split())

    def place(self):
        return f"{self.file}:{self.line}"

    def quoted(self):
        """Returns it in words, with its place, unless the words of this run ask for it."""
        return f"{self.name} {self.rest}, as asked," if self.is_asked else f"`{self.text}` ({self.place()})"

    def flags(self):
        """Returns the flags that it sets, in lower case, each with whether it is on."""
        if not FLAGS.fullmatch(self.rest) or self.rest in RANGES:
            return {}
        return {it[1:].lower(): it[0] == "+" for it in self.rest.split()}

    def range(self):
        """Returns its range, or none if it says something else."""
        return None if self.flags() or self.rest in ("installed", "source", "test", "bench") else self.rest

    def is_on(self, qualifier):
        """Returns whether variables with this qualifier are in its scope."""
        return {"any.": True, "setup.": qualifier.endswith(":setup."), "": not qualifier}.get(self.scope, self.scope == qualifier)


def settings_in(items, file, platform, section=None):
    """Yields the settings in elements, except those in branches that surely don't hold."""
    is_open = False
    for it in items:
        if isinstance(it, Field):
            yield Setting(file, it, section)
        elif it.name in ("if", "elif", "else"):
            is_open = is_open or it.name == "if"
            holds = is_open and (True if it.name == "else" else conditions.value(it.args, platform))
            if holds is not False:
                yield from settings_in(it.items, file, platform, section)
            is_open = is_open and holds is not True
        elif section is None:
            yield from settings_in(it.items, file, platform, (it.name, it.args))


class Project:
    """The settings of a project, the texts of its files, and its local packages."""

    def __init__(self, folder, platform):
        self.folder = folder
        self.texts = {it: text for it in FILES for text in [text_of(f"{folder}/{it}")] if text is not None}
        self.items = {file: items_of(text) for file, text in self.texts.items()}
        self.settings = [it for file, items in self.items.items() for it in settings_in(items, file, platform)]
        self.members = list(self.of_members())
        self.paths = list(dict.fromkeys(path for _, _, _, paths in self.members for path in paths))
        self._constraints, self._relaxers = {}, None
        self.read_locals()

    def read_locals(self):
        """Reads the local packages. The texts of their files are kept."""
        self.locals = []
        for path in self.paths:
            text = text_of(f"{self.folder}/{path}")
            if text is not None:
                self.texts[path] = text
                self.locals.append(Description(text, path))

    def of(self, name, section=None):
        """Returns the settings of this name."""
        return [it for it in self.settings if it.name == name and (it.section and it.section[0]) == section]

    def of_members(self):
        """Yields the entries of packages: the entry, its field, its place and the local files that it gives."""
        told, found = [it for name in ("packages", "optional-packages") for it in self.of(name)], {}
        for it in told:
            for entry, line in names(it.field):
                if entry not in found:
                    found[entry] = [] if REFUSED.search(entry) else of_entry(self.folder, entry)
                yield entry, it, f"{it.file}:{line}", found[entry]
        if "cabal.project" not in self.texts:
            yield "*.cabal", None, "", of_entry(self.folder, "./*.cabal")

    def on(self, package, name="constraints"):
        """Returns the constraints on a package, or what another field of such entries says of it: each text once."""
        if name not in self._constraints:
            self._constraints[name] = {}
            for it in self.constraints(name):
                self._constraints[name].setdefault(it.name, {}).setdefault((it.scope, it.rest), it)
        return list(self._constraints[name].get(package, {}).values())

    def constraints(self, name="constraints"):
        """Returns the constraints, and the flags of sections `package NAME`."""
        found = [
            Constraint(text, (it.file, line), told, it.field)
            for it in self.of(name)
            for text, line in entries(it.field)
            for told in [SCOPE.fullmatch(text)]
            if told
        ]
        if name == "constraints":
            for it in self.of("flags", "package"):
                for text, line in names(it.field):
                    told = SCOPE.fullmatch(f"{it.section[1]} {text if text[0] in '+-' else f'+{text}'}")
                    found += [Constraint(f"package {it.section[1]}, flags: {text}", (it.file, line), told)] if told else []
        return found

    def single(self, name):
        """Returns the last value of a single field with its place, or none."""
        told = self.of(name)[-1:]
        return (told[0].field.text().strip(), f"{told[0].file}:{told[0].field.line}") if told else None

    def is_true(self, name):
        """Returns the place of a single field that is `True`, or none."""
        told = self.single(name)
        return told[1] if told and told[0].lower() == "true" else None

    def relaxers(self):
        """Returns the entries of `allow-newer` and `allow-older` by the dependency that they name: whose bounds they relax
        (the empty text for all packages), and their place."""
        if self._relaxers is None:
            self._relaxers = {}
            for it in (*self.of("allow-newer"), *self.of("allow-older")):
                for text, line in entries(it.field):
                    whose, _, on = text.rpartition(":")
                    whose, on = re.sub(r"-[0-9.]+$", "", whose.strip()), on.strip().lstrip("^")
                    key = ANY if not whose and on.lower() in EVERY else on
                    self._relaxers.setdefault(key, {}).setdefault("" if whose in EVERY else whose, f"{it.name} at {it.file}:{line}")
        return self._relaxers

    def relaxed(self, owner, dependency):
        """Returns the place of an entry by which bounds of a package on another may be relaxed, or none."""
        told = [self.relaxers().get(it, {}) for it in (dependency, ANY)]
        return next((it[whose] for it in told for whose in (owner, "") if whose in it), None)
