"""Bounds: with which versions of its dependencies a project plans.

Input: the files of a target, and the index. Output: a setting for each version of each dependency, which bars all others and
puts the project's own bounds on it aside; and from the verdicts the widest ranges that plan, as text for `build-depends`."""

import re

from tool.folder.index import by_number

PLANS, UNUSED = "plan", "not in the plan"


def asked(files, stock, compiler, setting):
    """Yields the settings for the versions of dependencies, each with the dependency and its version."""
    from tool.why.packages import Description

    found = [Description(text, path) for path, text in files.texts.items()]
    names = sorted({it.name for of in found for it in of.asks if it.kind == "lib"} - files.own)
    for name in names:
        there = {*stock.name(name).versions, *compiler.versions.get(name, ())}
        relaxed = ", ".join(f"{it}:{name}" for it in sorted(files.own))
        for version in sorted(there, key=by_number):
            lines = [f"constraints: {name} =={version}", f"allow-newer: {relaxed}", f"allow-older: {relaxed}"]
            yield setting.with_lines(f"{name}=={version}", lines), (setting, name, version)


def verdict(record, name, version):
    """Returns the verdict for a version: a plan counts only if it has the version."""
    if record["verdict"] != PLANS:
        return record["verdict"]
    return PLANS if re.search(rf"(?m)^choose {re.escape(name)} {re.escape(version)} ", record["output"]) else UNUSED


def next_major(version):
    """Returns the next major version, as `cabal gen-bounds` takes it for an upper bound."""
    first, second = (*by_number(version), 0)[:2]
    return f"{first}.{second + 1}"


def ranges(verdicts):
    """Returns the widest ranges that have exactly the versions that plan, of a list of versions in order with verdicts."""
    found, start = [], None
    for version, told in verdicts:
        if told == PLANS and start is None:
            start = version
        elif told != PLANS and start is not None:
            found.append(f">={start} && <{version}")
            start = None
    if start is not None:
        found.append(f">={start} && <{next_major(verdicts[-1][0])}")
    return " || ".join(found)


class Tables:
    """The tables of bounds: for each target, compiler and setting the verdicts by dependency."""

    def __init__(self):
        self.found = {}

    def note(self, cell, record):
        """Adds the verdict of a cell."""
        if cell.bound:
            setting, name, version = cell.bound
            of = self.found.setdefault((cell.target.called, cell.compiler.name, setting.name), {})
            of.setdefault(name, []).append((version, verdict(record, name, version)))

    def objects(self):
        """Yields an object for each table."""
        for (target, compiler, setting), names in self.found.items():
            rows = [{"name": name, "range": ranges(told), "versions": dict(told)} for name, told in names.items()]
            yield {"target": target, "compiler": compiler, "setting": setting, "bounds": rows}

    def lines(self):
        """Yields the lines of all tables."""
        for it in self.objects():
            yield f"bounds of {it['target']} with {it['compiler']} {it['setting']}: the versions that plan, one dependency at a time"
            yield "build-depends:"
            rows = it["bounds"]
            for at, row in enumerate(rows):
                others = [f"{version} {told}" for version, told in row["versions"].items() if told != PLANS]
                text = f"    {row['name']} {row['range']}" if row["range"] else f"    -- {row['name']}: no version"
                is_last = not any(later["range"] for later in rows[at + 1 :])
                yield text + "," * (bool(row["range"]) and not is_last) + f"  -- {', '.join(others)}" * bool(others)
