"""Findings in the project files: fields, sections, and names that nothing has."""

from tool.elements import Field, entries
from tool.lint.findings import Finding
from tool.lint.known import BRANCHES, OF_PROGRAM, OF_PROJECT, OF_PROJECT_SECTIONS, UNREAD
from tool.lint.layout import of_swallowed, tabs
from tool.why.packages import Description
from tool.why.project import EVERY
from tool.why.reasons import is_made
from tool.why.texts import listed, text_of

KNOWN = OF_PROJECT.union(*OF_PROJECT_SECTIONS.values())
MOST_FILES = 2000


class ProjectFile:
    """A project file, and what is wrong with it. Names aren't looked up."""

    def __init__(self, file, items, text, speller):
        self.file, self.items, self.text, self.nearest = file, items, text, speller.nearest

    def finding(self, it, code, text):
        return Finding(self.file, it.line, code, text)

    def findings(self):
        """Yields the findings."""
        yield from of_swallowed(self.file, self.items, self.text, KNOWN)
        yield from tabs(self.file, self.text)
        yield from self.of_items(self.items, None)

    def of_items(self, items, section):
        """Yields what is wrong with fields and sections."""
        for it in items:
            if isinstance(it, Field):
                yield from self.of_field(it, section)
            elif it.name in BRANCHES:
                yield from self.of_items(it.items, section)
            elif section is None and it.name in OF_PROJECT_SECTIONS:
                yield from self.of_items(it.items, it)
                if it.name == "repository":
                    yield self.finding(it, "L106", "`repository` is unread: `cabal-plan folder` makes the index")
            else:
                within = f" in `{section.name}`" if section else ""
                yield self.finding(it, "L102", f"there is no section `{it.name}`{within}{self.nearest(it.name, OF_PROJECT_SECTIONS)}")

    def of_field(self, field, section):
        """Yields what is wrong with a field."""
        kind = section and section.name
        known = OF_PROJECT_SECTIONS[kind] if kind else OF_PROJECT
        if (kind, field.name) in UNREAD:
            yield self.finding(field, "L106", f"`{field.name}:`{f' of `{kind}`' if kind else ''} is unread: write {UNREAD[kind, field.name]}")
        elif kind is None and field.name in ("tests", "benchmarks") and field.text().strip().lower() == "false":
            yield self.finding(field, "L106", f"`{field.name}: False` counts as unset: {field.name} are part of the plan where they can be")
        elif field.name in known or OF_PROGRAM.fullmatch(field.name) or not known or field.name.startswith("x-"):
            return
        elif kind == "package" and field.name in OF_PROJECT:
            yield self.finding(field, "L104", f"`{field.name}:` isn't a field of `package {section.args}`, and isn't read there")
        else:
            yield self.finding(field, "L101", f"there is no field `{field.name}`{self.nearest(field.name, known)}")


class Names:
    """The names of packages and flags that a folder has."""

    def __init__(self, folder, speller):
        self.folder, self.flags, self.nearest = folder, {}, speller.nearest
        self.where = f"local, in `{folder.installed}` or in `{folder.index}`"
        self.is_made = is_made(folder)

    def package(self, name, file, line, told):
        """Yields a finding if nothing has a package of this name."""
        if name in self.folder.known() or name in EVERY:
            return
        alike = self.folder.alike(name)
        more = f": did you mean {' or '.join(f'`{it}`' for it in alike)}?" if alike else " that the project reaches" if self.is_made else ""
        yield Finding(file, line, "L201", f"{told} has no effect: there is no package `{name}` {self.where}{more}")

    def flags_of(self, name):
        """Returns the flags of all versions of a package, or none if no file of it is there."""
        if name not in self.flags:
            folder = self.folder
            paths = [f"{folder.index}/{name}/{it}/{name}.cabal" for it in folder.versions_of(name)[:MOST_FILES]]
            texts = [(path, text_of(f"{folder.folder}/{path}")) for path in paths] if name not in folder.local else []
            there = [Description(text, path) for path, text in texts if text is not None]
            there += [folder.local[name]] if name in folder.local else []
            self.flags[name] = {flag for it in there for flag in it.flags} if there else None
        return self.flags[name]

    def flag(self, constraint):
        """Yields a finding for each flag that no version has."""
        known = self.flags_of(constraint.name) if constraint.flags() else None
        for flag in constraint.flags() if known is not None else ():
            if flag not in known:
                text = f"`{constraint.text}` has no effect: no version of {constraint.name} has a flag `{flag}`"
                yield Finding(constraint.file, constraint.line, "L202", text + (self.nearest(flag, known) if known else ": it has no flags"))


def of_names(folder, speller):
    """Yields the findings on names: of constraints and preferences, of relaxed bounds, and of sections."""
    if not listed(f"{folder.folder}/{folder.index}") and not folder.units():
        return
    names, project = Names(folder, speller), folder.project
    for field in ("constraints", "preferences"):
        for it in project.constraints(field):
            yield from names.package(it.name, it.file, it.line, f"`{it.text}`")
            if it.scope.endswith(":setup."):
                yield from names.package(it.scope.split(":")[0], it.file, it.line, f"`{it.text}`")
            yield from names.flag(it)
    for setting in (it for name in ("allow-newer", "allow-older") for it in project.of(name)):
        for text, line in entries(setting.field):
            yield from of_relaxed(names, setting, text, line)


def of_relaxed(names, setting, text, line):
    """Yields the findings on an entry of `allow-newer` or `allow-older`."""
    for part in text.split(":"):
        name = part.strip().lstrip("^")
        stem, _, version = name.rpartition("-")
        name = stem if stem and version.replace(".", "").isdecimal() else name
        if name.lower() not in (*EVERY, "none", "false"):
            yield from names.package(name, setting.file, line, f"`{text}` of {setting.name}")
