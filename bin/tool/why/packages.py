"""What a package file says of dependencies, with lines.

In: the text of a `.cabal` file. Out: its name and version, its dependencies under all conditions, its executables,
libraries and flags."""

import re

from tool.elements import Field, Section, entries
from tool.why.texts import items_of

FIELDS = {"build-depends": "lib", "setup-depends": "setup", "build-tool-depends": "tool"}
COMPONENTS = ("library", "foreign-library", "executable", "test-suite", "benchmark", "custom-setup")
STANZAS = {"test-suite": "*test", "benchmark": "*bench"}
ENTRY = re.compile(r"([A-Za-z0-9][A-Za-z0-9-]*)\s*(?::\s*(\{[^{}]*\}|[A-Za-z0-9_-]+))?\s*(.*)", re.S)
# The most branches before an `else` that are told, and the most stanzas in one another that are followed.
MOST_BRANCHES, DEEPEST = 8, 64


class Ask:
    """A dependency: its owner, the kind (`lib`, `setup`, `tool`), the package, the library or executable of it, the range,
    the file and line, the place in the file, and its field and entry as they were written."""

    def __init__(self, owner, kind, told, where, at, field=None):
        self.owner, self.kind, (self.file, self.line) = owner, kind, where
        self.field, self.entry = field, (told[0], where[1])
        self.name, self.part, self.range = told[1], told[2] or "", " ".join(told[3].split())
        self.stanza, self.component, self.conditions = at
        self.text = f"{self.name}{f':{self.part}' if self.part else ''} {self.range}".strip()

    def place(self):
        return f"{self.file}:{self.line}"

    def under(self):
        """Returns the component and conditions in words, if they have to be said."""
        told = [f"of {self.component}"] * bool(self.stanza) + list(self.conditions)
        return f" [{', '.join(told)}]" if told else ""


class Description:
    """A package file: `asks` are its dependencies."""

    def __init__(self, text, file):
        self.file, items = file, items_of(text)
        top = {it.name: it for it in items if isinstance(it, Field)}
        self.name, self.version = (top[it].text().strip() if it in top else "" for it in ("name", "version"))
        self.version_line = top["version"].line if "version" in top else 1
        sections = [it for it in items if isinstance(it, Section)]
        self.flags = {it.args.lower(): it for it in sections if it.name == "flag"}
        self.executables = [it.args.strip('"') for it in sections if it.name == "executable"]
        self.libraries = [it.args for it in sections if it.name == "library"]
        self.stanzas = {it.args: it for it in sections if it.name == "common"}
        self.off, self.done = {}, set()
        self.asks = [ask for it in sections if it.name in COMPONENTS for ask in self.of_component(it)]

    def of_component(self, section):
        """Yields the dependencies of a component, with those of the stanzas that it imports. Those of one stanza under the
        same conditions come once for all components."""
        off = self.unbuildable(section)
        if [] in off:
            return
        component, stanza = f"{section.name} {section.args}".strip(), STANZAS.get(section.name, "")
        open_ = [(section, tuple(f"not ({joined(it)})" for it in off[:MOST_BRANCHES]))]
        while open_:
            at, around = open_.pop()
            for field, conditions in conditional(at.items, around):
                for name in imports(field):
                    key = (name, stanza, tuple(conditions))
                    if name in self.stanzas and key not in self.done:
                        self.done.add(key)
                        open_.append((self.stanzas[name], tuple(conditions)))
                yield from self.of_field(field, (stanza, component, conditions))

    def of_field(self, field, at):
        """Yields the dependencies in a field."""
        for text, line in entries(field) if field.name in FIELDS else ():
            told = ENTRY.fullmatch(text)
            if told and told[1] != self.name and told[1] not in self.libraries:
                yield Ask(self, FIELDS[field.name], told, (self.file, line), at, field)

    def unbuildable(self, section, depth=0):
        """Returns under which conditions a component isn't buildable: each a list of conditions, the empty one for always."""
        found = []
        for field, conditions in conditional(section.items):
            if field.name == "buildable" and field.text().strip().lower() == "false":
                found.append(conditions)
            for name in imports(field) if depth < DEEPEST else ():
                if name in self.stanzas and name not in self.off:
                    self.off[name] = []
                    self.off[name] = self.unbuildable(self.stanzas[name], depth + 1)
                found += [[*conditions, *it] for it in self.off.get(name, [])]
        return found


def imports(field):
    """Returns the stanzas that a field imports."""
    return [it for it in re.split(r"[,\s]+", field.text()) if it] if field.name == "import" else []


def joined(conditions):
    """Returns conditions as one."""
    return " && ".join(f"({it[3:]})" if it.startswith("if ") else f"!({it[4:]})" for it in conditions)


def conditional(items, conditions=()):
    """Yields the fields of a component, each with the conditions under which it counts: `if ..` or `not ..`."""
    last = []
    for it in items:
        if isinstance(it, Field):
            yield it, list(conditions)
            continue
        if it.name == "if":
            last = []
        if it.name in ("if", "elif", "else"):
            here = [it.args] if it.name != "else" else []
            yield from conditional(it.items, [*conditions, *(f"not {negated(one)}" for one in last), *(f"if {one}" for one in here)])
            last = [*last, *here][-MOST_BRANCHES:]


def negated(text):
    return f"({text})" if re.search(r"\s", text) else text
