"""What changes from one plan to another, or from one freeze file to another.

In: two plans or two lists of constraints, as `Settled`. Out: changes, each with its kind, its name, and what was and is."""

import re

from tool.elements import Field, Misread, elements, entries, walk
from tool.plans.nodes import Graph
from tool.plans.variables import STANZAS, Variable
from tool.refusal import Refusal, escaped

UPGRADED, DOWNGRADED, ADDED, REMOVED, RANGE, SOURCE, FLAG, TESTS, BENCHMARKS, COMPONENT, REBUILT = KINDS = (
    "upgraded", "downgraded", "added", "removed", "range", "source", "flag", "tests", "benchmarks", "component", "rebuilt"
)  # fmt: skip
ENTRY = re.compile(r"((?:any\.|[A-Za-z0-9-]+:setup\.|setup\.)?)([A-Za-z0-9-]+)\s*(.*)", re.S)
EXACTLY = re.compile(r"==\s*([0-9]+(?:\.[0-9]+)*)")
VERSION = re.compile(r"[0-9]{1,9}(?:\.[0-9]{1,9})*")
SIGNED = re.compile(r"([+-])([A-Za-z0-9_][A-Za-z0-9_-]*)")
RANGES = ("-any", "-none")
MOST_NAMED = 5


class Settled:
    """What a plan or a freeze file settles: the version and the source of each package, the values of flags and stanzas,
    the components, and their builds. What isn't known is missing."""

    def __init__(self):
        self.versions, self.sources, self.values, self.components, self.builds = {}, {}, {}, {}, {}


def of_plan(plan):
    """Returns what a plan settles."""
    found = Settled()
    for it in plan["choices"]:
        variable, words = Variable(it["var"]), it["value"].split()
        if variable.part:
            found.values[it["var"]] = it["value"]
        elif words:
            found.versions[it["var"]], found.sources[it["var"]] = words[0], " ".join(words[1:2])
    for node in Graph(plan).nodes:
        found.components.setdefault(node.name, set()).add(node.component)
        found.builds.setdefault(node.plain(), set()).add(node.id)
    return found


def of_freeze(text, path):
    """Returns what the constraints of a freeze file settle. `any.NAME` counts as NAME."""
    try:
        items = elements(text)
    except Misread as error:
        raise Refusal(f"{path}:{error.line}: neither a plan of `plan --json` nor a freeze file: {error}") from error
    found = Settled()
    fields = [it for it in walk(items) if isinstance(it, Field) and it.name == "constraints"]
    if not fields:
        raise Refusal(f"{path}:1: neither a plan of `plan --json` nor a freeze file: it has no constraints")
    for text, line in (it for field in fields for it in entries(field)):
        settle(found, text, f"{path}:{line}")
    return found


def settle(found, text, where):
    """Adds an entry of constraints."""
    of = ENTRY.fullmatch(text)
    if not of:
        raise Refusal(f"{where}: this is no constraint: {text}")
    name, rest = ("" if of[1] == "any." else of[1]) + of[2], of[3].strip()
    words = rest.split()
    if rest in ("installed", "source"):
        found.sources[name] = rest
    elif rest in ("test", "bench"):
        found.values[f"{name}:*{rest}"] = "on"
    elif words and all(SIGNED.fullmatch(it) for it in words) and rest not in RANGES:
        found.values.update({f"{name}:{it[1:]}": "on" if it[0] == "+" else "off" for it in words})
    else:
        exactly = EXACTLY.fullmatch(rest)
        found.versions[name] = exactly[1] if exactly else " ".join(words) or "any version"


class Change:
    """A change: its kind, its name, and what was and is, or none."""

    def __init__(self, kind, name, old, new):
        self.kind, self.name, self.old, self.new = kind, name, old, new

    def json(self):
        return {"kind": self.kind, "name": self.name, "new": self.new, "old": self.old}

    def text(self):
        """Returns it without its kind."""
        if self.kind == ADDED:
            return f"{self.name} {self.new}"
        if self.kind == REMOVED:
            return f"{self.name} {self.old}"
        return f"{self.name} {self.old or 'none'} -> {self.new or 'none'}"


def key(version):
    return [int(it) for it in version.split(".")]


def of_version(name, old, new):
    """Returns the change of a version or range."""
    if not VERSION.fullmatch(old) or not VERSION.fullmatch(new):
        return Change(RANGE, name, old, new)
    return Change(UPGRADED if key(old) < key(new) else DOWNGRADED, name, old, new)


def of_packages(old, new):
    """Yields the changes of versions and sources. A source alone isn't a package."""
    for name in sorted(old.versions.keys() | new.versions.keys()):
        was, now = old.versions.get(name), new.versions.get(name)
        if was is None or now is None:
            yield Change(ADDED if was is None else REMOVED, name, was, now)
        elif was != now:
            yield of_version(name, was, now)
    for name in sorted(old.sources.keys() | new.sources.keys()):
        was, now = old.sources.get(name), new.sources.get(name)
        if was != now and (name in old.versions) == (name in new.versions):
            yield Change(SOURCE, name, was, now)


def of_values(old, new):
    """Yields the changes of flags and stanzas. Of packages that only one has, or in other versions, a part that only one
    has is no change."""
    for text in sorted(old.values.keys() | new.values.keys()):
        was, now, variable = old.values.get(text), new.values.get(text), Variable(text)
        is_one = old.versions.get(variable.of()) == new.versions.get(variable.of())
        if was != now and (None not in (was, now) or is_one):
            kind = STANZAS.get(variable.part, FLAG)
            yield Change(kind, variable.of() if kind != FLAG else text, was, now)


def of_components(old, new):
    """Yields the changes of the components of packages that both have, and the builds that differ."""
    for name in sorted(old.components.keys() & new.components.keys()):
        was, now = old.components[name], new.components[name]
        yield from (Change(COMPONENT, f"{name}:{it}", "there", None) for it in sorted(was - now))
        yield from (Change(COMPONENT, f"{name}:{it}", None, "there") for it in sorted(now - was))
    for name in sorted(old.builds.keys() & new.builds.keys()):
        if old.builds[name] != new.builds[name]:
            yield Change(REBUILT, name, " ".join(sorted(old.builds[name])), " ".join(sorted(new.builds[name])))


def changes(old, new):
    """Returns all changes, by kind and name."""
    found = [*of_packages(old, new), *of_values(old, new), *of_components(old, new)]
    return sorted(found, key=lambda it: KINDS.index(it.kind))


def lines(found):
    """Yields a line for each change, and one for all builds with other identifiers."""
    width = max((len(it) for it in KINDS), default=0)
    for it in found:
        if it.kind != REBUILT:
            yield f"{it.kind:<{width}}  {escaped(it.text())}"
    builds = [it.name for it in found if it.kind == REBUILT]
    if builds:
        rest = f", and {len(builds) - MOST_NAMED} more" if len(builds) > MOST_NAMED else ""
        yield f"{REBUILT:<{width}}  {escaped(', '.join(builds[:MOST_NAMED]))}{rest}: the same versions with other identifiers"
