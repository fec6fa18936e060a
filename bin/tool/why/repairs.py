"""Repairs of an entry that can't be read, to be tried.

In: the entries of a field, and which of them is at fault. Out: for each repair what to do, and the entries then."""

import re

from tool.why.packages import ENTRY

OPERATOR = re.compile(r"\s*(?:[<>=^]|&&|\|\|)")
NEXT_NAME = re.compile(r"(?<=[\s\w*)}])\s+(?=[A-Za-z][A-Za-z0-9-]*(?![\w.]*\())")
SPELT = (
    (re.compile(r"=>"), ">=", "`=>` is no operator"),
    (re.compile(r"=<"), "<=", "`=<` is no operator"),
    (re.compile(r"≥"), ">=", "`≥` is no operator"),
    (re.compile(r"≤"), "<=", "`≤` is no operator"),
    (re.compile(r"~>|~="), "^>=", "`~>` is no operator"),
    (re.compile(r"(?<![<>=^])=(?!=)"), "==", "`=` is no operator"),
    (re.compile(r"&(?!&)(?<!&&)"), "&&", "bounds are joined by `&&`"),
    (re.compile(r"==(\s*[0-9.]*)\.x\b"), r"==\1.*", "a prefix is written with `.*`"),
    (re.compile(r"([<>]=?\s*[0-9.]*)\.[x*](?![\w.])"), r"\1", "`.*` stands only behind `==`"),
    (re.compile(r"(?<![0-9.])0+(?=[0-9])|(?<=\.)0+(?=[0-9])"), "", "a version has no leading zeros"),
    (re.compile(r"^([A-Za-z][\w-]*?)-([0-9][0-9.]*)$"), r"\1 ==\2", "a version stands behind `==`"),
    (re.compile(r"^([A-Za-z][\w-]*)\s+([0-9][0-9.]*)$"), r"\1 ==\2", "a version stands behind `==`"),
    (re.compile(r"^[\"'](.*)[\"']$"), r"\1", "entries have no quotes"),
    (re.compile(r"\s*#.*$"), "", "a comment begins with `--`, on a line of its own"),
    (re.compile(r"\s+--.*$"), "", "a comment stands on a line of its own"),
)


def repairs(field, all_, at):
    """Yields repairs of one entry, the likeliest first."""
    entry, number = all_[at]
    if OPERATOR.match(entry) and at:
        before, line = all_[at - 1]
        joined = f"{before} {entry}" if re.match(r"\s*(?:&&|\|\|)", entry) else f"{before} && {entry}"
        yield f"a comma ends an entry, so `{entry}` has no name: write `{joined}`", [*all_[: at - 1], (joined, line), *all_[at + 1 :]]
    for pattern, new, why in SPELT:
        told = pattern.sub(new, entry)
        if told != entry:
            yield f"{why}: write `{told}`", [*all_[:at], (told, number), *all_[at + 1 :]]
    yield from missing_comma(field, all_, at)
    if ";" in entry:
        parts = [it.strip() for it in entry.split(";") if it.strip()]
        yield "entries stand between commas, and not `;`", [*all_[:at], *((it, number) for it in parts), *all_[at + 1 :]]
    if field.name == "build-tool-depends" and (told := ENTRY.fullmatch(entry)) and not told[2]:
        fixed = f"{told[1]}:{told[1]} {told[3]}".strip()
        yield f"a tool is named with its executable: write `{fixed}`", [*all_[:at], (fixed, number), *all_[at + 1 :]]
    yield from as_constraint(all_, at)


def missing_comma(field, all_, at):
    """Yields the entry in two, at each place where a name may begin."""
    entry, number = all_[at]
    for count, it in enumerate(NEXT_NAME.finditer(entry)):
        if count == 4:
            return
        one, other = entry[: it.start()], entry[it.end() :]
        place = next((line for value, line in zip(field.values, field.lines) if line > number and value.startswith(other.split(" ")[0])), number)
        where = f" at line {place}" if place != number else ""
        yield f"a comma is missing in front of `{other.split(' ')[0]}`{where}: write `{one}, {other}`", [
            *all_[:at],
            (one, number),
            (other, place),
            *all_[at + 1 :],
        ]


def as_constraint(all_, at):
    """Yields an entry without a colon too many."""
    entry, number = all_[at]
    if entry.count(":") > 1:
        told = ":".join(entry.split(":")[:2])
        yield f"an entry has one colon: write `{told}`", [*all_[:at], (told, number), *all_[at + 1 :]]
