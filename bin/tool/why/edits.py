"""Changes to the text of a file, for copies in a room. Lines keep their numbers.

In: a text, one of its fields, and the entries that it shall have. Out: the new text, or none where the field's layout isn't
a plain one."""

import re

HEAD = re.compile(r"[ \t]*[\w.-]+[ \t]*:")


def with_entries(text, field, kept):
    """Returns the text in which a field has these entries, each on the line that is given with it."""
    lines = text.split("\n")
    head = HEAD.match(lines[field.line - 1])
    if not head or lines[field.line - 1][head.end() :].lstrip()[:1] == "{" or "{" in field.values[:1]:
        return None
    by_line = {}
    for at, (entry, line) in enumerate(kept):
        by_line.setdefault(line, []).append(f", {entry}" if at else entry)
    for number in {field.line, *field.lines}:
        front = f"{head[0]} " if number == field.line else re.match(r"[ \t]*", lines[number - 1])[0]
        lines[number - 1] = (front + "".join(by_line.get(number, []))).rstrip()
    return "\n".join(lines)


def without_field(text, field):
    """Returns the text without a field, or none."""
    lines = text.split("\n")
    if not HEAD.match(lines[field.line - 1]):
        return None
    for number in {field.line, *field.lines}:
        lines[number - 1] = ""
    return "\n".join(lines)


def replaced(entries, old, new):
    """Returns entries in which one is replaced, or left out where there is no new one."""
    return [(new if it == old else it) for it in entries if it != old or new is not None]


def with_line(text, line):
    """Returns a project file with one more line."""
    return f"{text}{'' if not text or text.endswith(chr(10)) else chr(10)}{line}\n"
