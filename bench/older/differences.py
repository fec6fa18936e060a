"""Two readings of one package by Cabal: of a file, and of the one that stands in for it. In: both. Out: what differs for planning."""

import re

from older.tokens import flat

# The fields that planning reads, and the sections with them. An error in any other field is none for the planner.
SEEN = {"name", "version", "cabal-version", "build-type", "build-depends", "setup-depends", "build-tool-depends", "build-tools", "buildable"} | {
    "visibility", "import", "default", "manual", "executable",
}  # fmt: skip
READ = {"2.4": "2.4", "3.0": "3.0", "3.4": "3.4"}
# What cabal-install 3.4 adds to the setup script of a package with an older header, and the version from which it has Cabal at most.
LEGACY = set(
    "array base binary bytestring containers deepseq directory filepath pretty process time transformers unix"
    " ghc-prim template-haskell".split()
)
ENDS = "<1.25"


def field_at(found, line):
    """Returns the place of the field with this line among elements, if planning doesn't see it; else none."""
    at = max((at for at, (_, it) in enumerate(found) if it["line"] <= line), default=None)
    return None if at is None or line == 0 or found[at][1].get("field", "build-depends") in SEEN else at


def is_unseen(parsed):
    """Returns whether Cabal refuses only fields that planning doesn't see."""
    found = list(flat(parsed.get("elements", ())))
    return "errors" in parsed and all(field_at(found, line) is not None for line, _ in parsed["errors"])


def blanked(content, parsed):
    """Returns the content with empty lines in place of fields that planning doesn't see and that Cabal refuses, and their names; or none if an
    error is elsewhere, or in a field that shares its lines."""
    found = list(flat(parsed.get("elements", ())))
    parts, names = re.split(rb"(\r\n|\n|\r)", content), set()
    starts = [it["line"] for _, it in found]
    for line, _ in parsed["errors"]:
        at = field_at(found, line)
        taken = None if at is None or starts.count(starts[at]) > 1 else places(parts[::2], starts[at], len(found[at][1]["values"]))
        if taken is None:
            return None, set()
        for place in taken:
            parts[2 * place] = b""
        names.add(found[at][1]["field"])
    return b"".join(parts), names


def places(lines, start, count):
    """Returns the places of the lines of a field that begins on a line and has so many values, or none if it is in braces."""
    value = lines[start - 1].partition(b":")[2].strip()
    found, left = [start - 1], count - bool(value)
    for place in range(start, len(lines)):
        text = lines[place].strip()
        if left <= 0:
            break
        if text and not text.startswith(b"--"):
            found.append(place)
            left -= 1
    return None if value.startswith(b"{") or (len(found) > 1 and lines[found[1]].strip().startswith(b"{")) else found


def setup(package):
    """Returns the setup dependencies of a package, implicit ones too, in order. Those that cabal-install adds at any version don't count."""
    if package["setup"] is None:
        if package["build-type"] != "Custom":
            return None
        return ["base"] if package["name"] == "Cabal" else [f"Cabal >={package['least-library']} && {ENDS}", "base"]
    implicit = package["build-type"] == "Custom" and any(it.endswith(ENDS) for it in package["setup"])
    return sorted(it for it in package["setup"] if not (implicit and it in LEGACY - {"base"}))


def plain(name):
    """Returns the name of a component with `_` in place of what the planner doesn't read."""
    return re.sub(r"[^A-Za-z0-9_-]", "_", name)


def is_renamed(old, new):
    """Returns whether a component keeps its name, or gets the plain one with further `_`."""
    is_odd = plain(old) != old or not old
    return old == new or (is_odd and new.rstrip("_") in (plain(old).rstrip("_"), plain(old.strip('"')).rstrip("_")))


def renames(before, after):
    """Returns the new names of executables by the old ones."""
    pairs = zip(before["components"], after["components"])
    return {old["name"]: new["name"] for old, new in pairs if old["kind"] == new["kind"] == "executable" and is_renamed(old["name"], new["name"])}


def tools(of, package, names):
    """Returns the tools of a node of a tree in order, with the new names of own ones."""
    own = f"{package}:"
    return sorted(own + names.get(it[len(own) :], it[len(own) :]) if it.startswith(own) else it for it in of["tools"])


def tree(before, after, package, names, where):
    """Yields what differs between two trees of conditions."""
    if before is None or after is None:
        if before is not after:
            yield f"{where} else", "none" if before is None else "one", "none" if after is None else "one"
        return
    if before["buildable"] != after["buildable"]:
        yield f"{where} buildable", before["buildable"], after["buildable"]
    if sorted(before["depends"]) != sorted(after["depends"]):
        yield f"{where} dependencies", ", ".join(before["depends"]), ", ".join(after["depends"])
    elif before["depends"] != after["depends"]:
        yield f"{where} order of dependencies", ", ".join(before["depends"]), ", ".join(after["depends"])
    if tools(before, package, names) != tools(after, package, {}):
        yield f"{where} tools", ", ".join(before["tools"]), ", ".join(after["tools"])
    conditions = [[it["if"] for it in side["branches"]] for side in (before, after)]
    if conditions[0] != conditions[1]:
        yield f"{where} conditions", "; ".join(conditions[0]), "; ".join(conditions[1])
        return
    for old, new in zip(before["branches"], after["branches"]):
        yield from tree(old["then"], new["then"], package, names, f"{where} if")
        yield from tree(old["else"], new["else"], package, names, f"{where} else")


def nearest(spec):
    return READ.get(spec, "2.4")


def flags(package):
    return [f"{it['name']} {'on' if it['default'] else 'off'}{' manual' if it['manual'] else ''}" for it in package["flags"]]


def are_same(before, after):
    """Returns whether two lists of components are the same up to names, each of which is taken once for its kind."""
    named = [(it["kind"], it["name"]) for it in after]
    is_once = len(set(named)) == len(named) or len({(it["kind"], it["name"]) for it in before}) < len(before)
    pairs = zip(before, after)
    alike = all(old["kind"] == new["kind"] and old["visibility"] == new["visibility"] and is_renamed(old["name"], new["name"]) for old, new in pairs)
    return is_once and alike and len(before) == len(after)


def differences(before, after):
    """Yields what differs: where, before, and after."""
    if after["spec"] != nearest(before["spec"]):
        yield "header", before["spec"], after["spec"]
    for what in ("name", "version", "build-type"):
        if before[what] != after[what]:
            yield what, before[what], after[what]
    if setup(before) != setup(after):
        yield "setup", setup(before), setup(after)
    if flags(before) != flags(after):
        yield "flags", flags(before), flags(after)
    if not are_same(before["components"], after["components"]):
        sides = [[f"{it['kind']} {it['name']} {it['visibility'] or ''}".strip() for it in side["components"]] for side in (before, after)]
        yield "components", sides[0], sides[1]
        return
    names = renames(before, after)
    for old, new in zip(before["components"], after["components"]):
        yield from tree(old["tree"], new["tree"], before["name"], names, old["kind"])


__all__ = ["blanked", "differences", "is_unseen"]
