"""The layout of a file: lines that a field above them has swallowed, and tabs.

In: the elements of a file, its lines, and the fields that are known. Out: findings."""

import re

from tool.elements import Field, walk
from tool.lint.findings import Finding
from tool.lint.known import FREE_TEXT

FIELD = re.compile(r"([A-Za-z][A-Za-z0-9-]*)[ \t]*:(?!:)")
NAMED = "library|executable|test-suite|benchmark|foreign-library|flag|common|package|source-repository"
SECTION = re.compile(rf"(?:library|custom-setup|(?:{NAMED})[ \t]+[\w.-]+|(?:if|elif)[ \t(!]+(?:os|arch|impl|flag)[ \t]*\(.*)", re.I)
BLANKS = re.compile(r"[ \t]*")


def indent(line):
    return BLANKS.match(line)[0]


def looks_swallowed(value, known):
    """Returns the name of the field or section that a value looks like, or none."""
    told = FIELD.match(value)
    if told and told[1].lower() in known:
        return f"{told[1]}:"
    return value if SECTION.fullmatch(value) else None


def is_slip(line, field):
    """Returns whether a line is indented so little more than a field that it was surely not meant as a part of it."""
    here, there = indent(line), indent(field)
    return ("\t" in here) != ("\t" in there) or len(here) <= len(there) + 1


def swallowed(field, lines, known):
    """Yields the line and text of each value of a field that looks like a field or section of its own."""
    is_free = field.name in FREE_TEXT or field.name.startswith("x-")
    for value, number in zip(field.values, field.lines):
        if number == field.line or (is_free and not is_slip(lines[number - 1], lines[field.line - 1])):
            continue
        told = looks_swallowed(value, known)
        if told:
            yield number, told


def of_swallowed(file, items, text, known):
    """Yields a finding for each line that a field has swallowed."""
    lines = text.split("\n")
    for field in (it for it in walk(items) if isinstance(it, Field)):
        for number, told in swallowed(field, lines, known):
            yield Finding(
                file, number, "L103", f"`{told}` is read as a part of `{field.name}:` of line {field.line}, since this line is indented more"
            )


def tabs(file, text):
    """Yields a finding for the first line of each run of lines with a tab in front."""
    before = False
    for number, line in enumerate(text.split("\n"), 1):
        here = "\t" in indent(line) and bool(line.strip())
        if here and not before:
            yield Finding(file, number, "L105", "a tab stands in front of this line, and counts as one column: indent by spaces")
        before = here if line.strip() else before
