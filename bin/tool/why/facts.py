"""The part of a folder that bears on some names: what is there of each, who asks for which range, and what bars it.

In: a folder, the words it was planned with, and the names of a conflict. Out: candidates, dependencies and constraints with
their places. It is all read off the files, and decides nothing."""

import difflib
import functools
import re

from tool.names import is_name
from tool.why.force import Machine, flags_in
from tool.why.packages import Ask, Description, ENTRY
from tool.why.project import Project
from tool.why.ranges import version as numbers_of
from tool.why.texts import items_of, listed, text_of

NAME = re.compile(r"((?:[\w-]+:setup\.|[\w-]+:[\w-]+:exe\.)?)([\w-]+)(?::(.+))?")
# The packages that aren't taken from the index unless the project says so.
BOOT = ("base", "ghc-bignum", "ghc-prim", "integer-gmp", "integer-simple", "template-haskell")
UNTAKEN = "which the index has, and which isn't taken from there, unless `allow-boot-library-installs: True` is set"
# The most versions of a package that are read, and the most constraints on it that are told.
MOST_FILES, MOST_CONSTRAINTS = 2000, 500
# The most lines of package files of the index that are looked into to explain a conflict, and the most records.
MOST_LINES, MOST_RECORDS = 300_000, 20_000
UNREAD = "not looked into"
# The most names for which others that are spelt alike are looked up.
MOST_ALIKE = 50


class Name:
    """A variable of a conflict: the qualifier (up to its last `:` or `.`), the package, and the flag or stanza, or none."""

    def __init__(self, text):
        told = NAME.fullmatch(text)
        self.text, (self.qualifier, self.package, self.part) = text, told.groups() if told else ("", text, None)


class Candidate:
    """A version of a package: where it comes from (`local`, `installed`, `index`), its description or its needs, and why it
    isn't taken, if that is so."""

    def __init__(self, package, version, origin, file, description=None, why_not=""):
        self.package, self.version, self.origin, self.file, self.why_not = package, version, origin, file, why_not
        self.description, self.needs = description, []

    def __str__(self):
        return f"{self.package} {self.version}"


class Unit:
    """A record of `installed`."""

    def __init__(self, path, text):
        told = {it.name: re.split(r"[,\s]+", it.text().strip()) for it in items_of(text) if hasattr(it, "values")}
        self.path, self.needs, self.is_part = path, [it for it in told.get("depends", []) if it], "lib-name" in told
        self.name, self.version, self.id = (" ".join(told.get(it, [])) for it in ("name", "version", "id"))


@functools.lru_cache(maxsize=1024)
def unit_of(path, text):
    """Returns a record. The last ones are kept, since other folders may have the same: don't change them."""
    return Unit(path, text)


def path_of(words, name):
    """Returns the folder that `--index` or `--installed` names."""
    return next((it.partition("=")[2] for it in words if it.startswith(f"--{name}=")), name)


class Folder:
    """A folder as it was planned: the project, the records and the index."""

    def __init__(self, folder, words):
        self.folder, self.words, self.machine = folder, list(words), Machine(words)
        self.index, self.installed = path_of(words, "index"), path_of(words, "installed")
        self.project = Project(folder, self.machine.platform)
        self.local = {it.name: it for it in self.project.locals}
        self._units = self._found = None
        self._alike, self.left = {}, MOST_LINES

    def units(self):
        """Returns the records, read once."""
        if self._units is None:
            paths = [it for it in listed(f"{self.folder}/{self.installed}") if it.endswith(".conf")][:MOST_RECORDS]
            texts = [(f"{self.installed}/{it}", text_of(f"{self.folder}/{self.installed}/{it}")) for it in paths]
            self._units = [unit_of(path, text) for path, text in texts if text is not None]
        return self._units

    def broken(self):
        """Returns for each unit that is left out the unit without a record to which it leads."""
        there = {it.id: it for it in self.units() if not it.is_part}
        users, open_, found = {}, [], {}
        for it in there.values():
            for need in it.needs:
                users.setdefault(need, []).append(it.id)
        for need in (it for it in users if it not in there):
            open_.append((need, need))
        while open_:
            at, cause = open_.pop()
            for user in users.get(at, []):
                if user not in found:
                    found[user] = cause
                    open_.append((user, cause))
        return found

    def known(self):
        """Returns all names that have a local package, a record or a folder in the index."""
        if self._found is None:
            self._found = {*self.local, *(it.name for it in self.units()), *listed(f"{self.folder}/{self.index}")}
        return self._found

    def alike(self, name):
        """Returns the known names that are spelt alike. It looks for a limited number of names only."""
        if name not in self._alike and len(self._alike) < MOST_ALIKE:
            low = name.lower().replace("_", "-")
            same = [it for it in self.known() if it.lower() == low]
            close = difflib.get_close_matches(name[:60], sorted(it for it in self.known() if abs(len(it) - len(name)) <= 2), 3, 0.75)
            self._alike[name] = [it for it in dict.fromkeys([*same, *close]) if it != name][:3]
        return self._alike.get(name, [])

    def versions_of(self, name):
        """Returns the versions of a name in the index, the latest first."""
        there = listed(f"{self.folder}/{self.index}/{name}") if is_name(name, "package") else []
        return sorted((it for it in there if is_name(it, "version")), key=numbers_of, reverse=True)

    def candidates(self, name, skipped):
        """Returns what there is of a package: a local one hides all others."""
        if name in self.local:
            of = self.local[name]
            return [Candidate(name, of.version, "local", of.file, of)]
        return [*self.installed_ones(name), *self.ones_of_index(name, skipped)]

    def installed_ones(self, name):
        """Returns the installed units of a name."""
        broken, found = self.broken(), []
        by_id = {it.id: it for it in self.units()}
        for it in (it for it in self.units() if it.name == name and not it.is_part):
            why_not = f"its record is left out: it needs {broken[it.id]}, which has no record" if it.id in broken else ""
            one = Candidate(name, it.version, "installed", it.path, why_not=why_not)
            one.needs = [by_id[need] for need in it.needs if need in by_id]
            found.append(one)
        return sorted(found, key=lambda it: numbers_of(it.version) or (), reverse=True)

    def ones_of_index(self, name, skipped):
        """Returns the versions of a name in the index."""
        found, is_taken = [], name not in BOOT or self.project.is_true("allow-boot-library-installs")
        for version in self.versions_of(name)[:MOST_FILES]:
            file = f"{self.index}/{name}/{version}/{name}.cabal"
            text = text_of(f"{self.folder}/{file}")
            if text is None and file not in skipped:
                continue
            self.left -= (text or "").count("\n")
            cause = f"its file is skipped: {skipped[file]}" if file in skipped else "" if is_taken else UNTAKEN
            cause = cause or UNREAD * (self.left < 0)
            found.append(Candidate(name, version, "index", file, Description("" if cause else text, file), cause))
        return found


class Facts:
    """What a folder has on the names of a conflict."""

    def __init__(self, folder, names, skipped):
        self.folder, self.names = folder, [Name(it) for it in names]
        self.known = {it.text for it in self.names}
        self.low = {it.lower() for it in self.known}
        self.packages = [it for it in self.names if not it.part]
        told = [re.fullmatch(r"(.*?\.cabal)(:\d+)? (.*)", it) for it in skipped]
        self.skipped = {it[1]: f"{it[3]}{it[2] and f' at line {it[2][1:]}' or ''}" for it in told if it}
        self.candidates = {name: folder.candidates(name, self.skipped) for name in dict.fromkeys(it.package for it in self.names)}
        self.certain, self.by_target = set(), {}
        self.asks = [
            (owner, target, one, ask)
            for owner in self.packages
            for one, ask in self.of_owner(owner)
            for target in [self.target(owner, ask)]
            if target
        ]
        for owner, target, one, ask in self.asks:
            self.by_target.setdefault(target, []).append((one, ask))

    def target(self, owner, ask):
        """Returns the variable of the conflict to which a dependency leads, or none."""
        name = {"setup": f"{owner.package}:setup.{ask.name}", "tool": f"{owner.package}:{ask.name}:exe.{ask.name}"}.get(
            ask.kind, owner.qualifier + ask.name
        )
        return name if name in self.known else None

    def of_owner(self, owner):
        """Yields the dependencies of a package of the conflict that can be in force within it, each with the candidate."""
        for one in self.candidates[owner.package]:
            if one.why_not:
                continue
            if one.description is None:
                yield from ((one, unit_ask(one, unit)) for unit in one.needs)
                continue
            flags = self.fixed(owner, one)
            for ask in one.description.asks:
                told = self.in_force(owner, one, ask, flags)
                if told is not False:
                    self.certain |= {(owner.text, ask)} if told else set()
                    yield one, ask

    def in_force(self, owner, one, ask, flags):
        """Returns whether a dependency is in force, or none if that is for choices of the conflict to say. Choices that
        aren't in the conflict don't bring it in force."""
        if ask.stanza and (one.origin != "local" or owner.qualifier or not self.has(f"{owner.text}:{ask.stanza}")):
            return False
        found = self.folder.machine.all_hold(ask.conditions, flags)
        free = flags_in(ask.conditions) - {it for it, _ in flags} if found is None else ()
        if not all(self.has(f"{owner.text}:{it}") for it in free):
            return False
        return found and (not ask.stanza or self.is_on(owner, ask.stanza) or None)

    def is_on(self, owner, stanza):
        """Returns whether the project asks for the test suites or benchmarks of a package."""
        field, word = {"*test": ("tests", "test"), "*bench": ("benchmarks", "bench")}[stanza]
        return bool(self.folder.project.is_true(field)) or any(it.rest == word for it in self.constraints(owner))

    def fixed(self, owner, one):
        """Returns the flags of a candidate that have one value: a constraint sets it, or it is a manual one that none sets."""
        told, anywhere = {}, {it for constraint in self.folder.project.on(owner.package) for it in constraint.flags()}
        for constraint in self.constraints(owner):
            for flag, is_on in constraint.flags().items():
                told.setdefault(flag, set()).add(is_on)
        found = {flag: min(told[flag]) for flag in one.description.flags if len(told.get(flag, ())) == 1}
        for flag, section in one.description.flags.items():
            of = {it.name: it.text().strip().lower() for it in section.items if hasattr(it, "values")}
            if flag not in anywhere and of.get("manual") == "true":
                found[flag] = of.get("default", "true") != "false"
        return tuple(sorted(found.items()))

    def has(self, variable):
        return variable.lower() in self.low

    def constraints(self, name):
        """Returns the constraints on a variable."""
        return [it for it in self.folder.project.on(name.package) if it.is_on(name.qualifier)][:MOST_CONSTRAINTS]

    def extras(self, name):
        """Returns the dependencies that `extra-packages` states of a package at top level."""
        if name.qualifier:
            return []
        return self.folder.project.on(name.package, "extra-packages")


def unit_ask(one, unit):
    """Returns the dependency of an installed unit on the unit that it was built with."""
    return Ask(None, "lib", ENTRY.fullmatch(f"{unit.name} =={unit.version}"), (one.file, 1), ("", "library", []))
