"""The constraints of a project that have a part in a conflict.

In: the facts on a conflict, and one of its variables. Out: what bars values of it, each with its file and line. A
constraint that admits all that is there of a package has no part; one on a flag has one if the flag is in the conflict."""

from tool.why.chain import of_constraint
from tool.why.ranges import admits

STANZAS = {"*test": ("tests", "test"), "*bench": ("benchmarks", "bench")}


def bars(constraint, ones):
    """Returns whether a constraint bars one of these candidates, or may do so: its range or a version can't be read."""
    told = constraint.range()
    unread = told is not None and any(admits(told, it.version) is None for it in ones)
    return unread or not ones or any(of_constraint(constraint, it) for it in ones)


def of_package(facts, name):
    """Yields the constraints that bar versions of a package, and the entries of `extra-packages`."""
    ones = [it for it in facts.candidates[name.package] if not it.why_not]
    for it in facts.constraints(name):
        if not it.flags() and it.rest not in ("test", "bench") and bars(it, ones):
            yield it, it.text
    yield from ((it, f"extra-packages: {it.text}") for it in facts.extras(name))


def of_flag(facts, name):
    """Yields the constraints that set a flag."""
    part = name.part.lower()
    for it in facts.constraints(name):
        if part in it.flags():
            yield it, f"{it.scope}{it.name} {'+' if it.flags()[part] else '-'}{part}"


def of_stanza(facts, name):
    """Yields what demands tests or benchmarks."""
    field, word = STANZAS[name.part]
    place = facts.folder.project.is_true(field)
    if place:
        file, _, line = place.rpartition(":")
        yield Place(file, line), f"{field}: True"
    yield from ((it, it.text) for it in facts.constraints(name) if it.rest == word)


class Place:
    """A file and a line."""

    def __init__(self, file, line):
        self.file, self.line = file, line


def barring(facts, name):
    """Returns the files that bar values of a variable, each with a line on it."""
    found = of_package if not name.part else of_stanza if name.part in STANZAS else of_flag
    return [(it.file, f"line {it.line}: {text}") for it, text in found(facts, name)]
