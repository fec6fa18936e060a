"""Compares two files in the form of cabal's plan.json, with identifiers mapped one to one.

In: the objects of both. Out: a text of the first difference, empty where there is none. Compared are the compiler, the
system and the processor, and of each unit that a local one leads to its type, style, package, version, flags, component
and needs. A package that one of them builds as a whole is one unit in both."""

import collections
import hashlib
import json

HEAD = ("compiler-id", "os", "arch")
KEYS = ("type", "style", "pkg-name", "pkg-version", "component-name")
NEEDS = ("depends", "exe-depends")
MOST_NAMED = 4


class Unit:
    """A unit: its values, the packages of it that the other file builds as a whole merged, and its needs by kind."""

    def __init__(self, of):
        parts = [of, *of.get("components", {}).values()]
        self.of = tuple(str(of.get(it)) for it in KEYS)
        self.flags = tuple(sorted(of.get("flags", {}).items()))
        self.needs = {kind: {need for part in parts for need in part.get(kind, [])} for kind in NEEDS}
        self.package, self.is_whole = (of["pkg-name"], of["pkg-version"]), of["type"] != "pre-existing" and "component-name" not in of

    def name(self):
        return "-".join(self.package) + ("" if self.is_whole else f":{self.of[-1]}")


def merged(units, whole):
    """Returns the units with those of each package of `whole` merged into one."""
    found, names = {}, {}
    for key, unit in units.items():
        if unit.package not in whole:
            found[key] = unit
            continue
        into = found.setdefault(("whole", *unit.package, unit.of[1]), unit)
        into.is_whole, into.of = True, (*unit.of[:-1], "None")
        names[key] = ("whole", *unit.package, unit.of[1])
        for kind in NEEDS:
            into.needs[kind] |= unit.needs[kind]
    for key, unit in found.items():
        unit.needs = {kind: {names.get(it, it) for it in needs} - {key} for kind, needs in unit.needs.items()}
    return found


def reached(units):
    """Returns the units that the local ones lead to, with these."""
    rest, seen = [key for key, it in units.items() if it.of[1] == "local"], set()
    while rest:
        key = rest.pop()
        if key not in seen:
            seen.add(key)
            rest += [it for needs in units[key].needs.values() for it in needs if it in units]
    return {key: it for key, it in units.items() if key in seen}


def signatures(units):
    """Returns for each unit a hash of it and of all that it leads to. Equal ones are one build by another identifier."""
    found = {}

    def of(key):
        if key not in found:
            found[key] = ""
            unit = units[key]
            needs = [sorted(of(it) for it in unit.needs[kind] if it in units) for kind in NEEDS]
            found[key] = hashlib.sha256(json.dumps([unit.of, unit.flags, needs]).encode()).hexdigest()
        return found[key]

    return {key: of(key) for key in units}


def direct(units, key):
    """Returns a unit with the names of its needs."""
    unit = units[key]
    return unit.of, unit.flags, tuple(tuple(sorted(units[it].name() for it in unit.needs[kind] if it in units)) for kind in NEEDS)


def difference(ours, theirs):
    """Returns a text of the difference of two plans in cabal's form."""
    head = [f"{it}: {ours.get(it)} {theirs.get(it)}" for it in HEAD if ours.get(it) != theirs.get(it)]
    sides = [{it["id"]: Unit(it) for it in side["install-plan"]} for side in (ours, theirs)]
    whole = {it.package for side in sides for it in side.values() if it.is_whole}
    sides = [reached(merged(side, whole)) for side in sides]
    counts = [collections.Counter(signatures(side).values()) for side in sides]
    if head or counts[0] == counts[1]:
        return "; ".join(head)
    here, there = (collections.Counter(direct(side, key) for key in side) for side in sides)
    told = [f"here {it}" for it in (here - there)][:MOST_NAMED] + [f"cabal {it}" for it in (there - here)][:MOST_NAMED]
    return "; ".join(told) or "the same units, put together otherwise"
