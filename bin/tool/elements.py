"""Reads the elements of a `.cabal` or project file as cabal does, older forms too.

In: the text of a file. Out: its fields and sections as a tree, each with its line, and the entries of a field with theirs."""

import re

NAME = re.compile(r"[A-Za-z0-9_.-]*[A-Za-z][A-Za-z0-9_.-]*")
BLANK = " \t"
ENTRY_MARKS, NAME_MARKS = re.compile(r"[{},]"), re.compile(r"[,\s]+")
COLON, BRACE = re.compile(r"[ \t]*"), re.compile(r"[{}]")
TOO_DEEP = 200


class Misread(Exception):
    """A text that can't be read: the reason, and the line."""

    def __init__(self, line, why):
        super().__init__(f"{why} at line {line}")
        self.line = line


class Field:
    """A field: its name in lower case, its values, one a line, the line of the field, and the line of each value."""

    def __init__(self, name, values, line=0, lines=None):
        self.name, self.values, self.line = name, values, line
        self.lines = lines if lines is not None else [line] * len(values)

    def text(self):
        return " ".join(self.values)


class Section:
    """A section: its name in lower case, its args, its items, and its line."""

    def __init__(self, name, args, items, line=0):
        self.name, self.args, self.items, self.line = name, args, items, line


class Reader:
    """The state of a reading: the line, the offset in it, and the number of open braces."""

    def __init__(self, text):
        self.lines, self.at, self.col, self.open = [], 0, 0, 0
        for number, line in enumerate(text.removeprefix("\ufeff").split("\n"), 1):
            line = line.removesuffix("\r").rstrip(BLANK)
            inner = line.lstrip(BLANK)
            if inner and not inner.startswith("--"):
                self.lines.append((number, len(line) - len(inner), inner))
        self.go_to_line(0)

    def go_to_line(self, at):
        """Goes to the front of a line. `text` is the line without the blanks in front of it, empty behind the last one."""
        self.at, self.col = at, 0
        self.text = self.lines[at][2] if at < len(self.lines) else ""

    def is_over(self):
        return not self.text

    def rest(self):
        """Returns the rest of the line."""
        return self.text[self.col :]

    def has(self, mark):
        """Returns whether this mark comes next."""
        return self.text.startswith(mark, self.col)

    def number(self):
        return self.lines[min(self.at, len(self.lines) - 1)][0] if self.lines else 1

    def indent(self):
        return self.lines[self.at][1]

    def is_at_start(self):
        return self.col == 0

    def skip_to(self, col):
        """Moves on to this offset and behind the blanks there; at the end of a line to the next one."""
        text = self.text
        while col < len(text) and text[col] in BLANK:
            col += 1
        if col < len(text):
            self.col = col
        else:
            self.go_to_line(self.at + 1)

    def elements(self, least, is_braced, depth):
        """Returns the elements of at least this indent, in braces up to the closing one."""
        found = []
        if depth > TOO_DEEP:
            raise Misread(self.number(), "sections too deep")
        while self.text:
            if self.has("}"):
                if self.open:
                    return found
                raise Misread(self.number(), "a brace that closes nothing")
            if not self.col and self.indent() < least:
                return found
            found.append(self.element(depth))
        if is_braced:
            raise Misread(self.number(), "a brace that nothing closes")
        return found

    def element(self, depth):
        """Returns one field or section."""
        line, is_inline = self.number(), not self.is_at_start()
        indent = 0 if is_inline else self.indent()
        named = NAME.match(self.text, self.col)
        if not named:
            raise Misread(line, "a line without a name")
        at = COLON.match(self.text, named.end()).end()
        if self.text.startswith(":", at):
            return Field(named[0].lower(), *self.values(at + 1, indent, is_inline, line))
        return self.section(named[0].lower(), named.end(), indent, is_inline, depth)

    def brace(self, col):
        """Returns the offset of the first brace behind this one, or of the line's end."""
        found = BRACE.search(self.text, col)
        return found.start() if found else len(self.text)

    def section(self, name, col, indent, is_inline, depth):
        """Returns a section whose name ends at this offset."""
        line, text = self.number(), self.text
        end = self.brace(col)
        args = text[col:end].strip(BLANK)
        self.skip_to(end)
        if not self.has("{"):
            if is_inline:
                raise Misread(line, "a section on one line without braces")
            return Section(name, args, self.elements(indent + 1, False, depth + 1), line)
        return Section(name, args, self.braced(depth), line)

    def braced(self, depth):
        """Returns the elements between braces, the first of which comes next."""
        self.skip_to(self.col + 1)
        self.open += 1
        found = self.elements(0, True, depth + 1)
        self.open -= 1
        self.skip_to(self.col + 1)
        return found

    def values(self, col, indent, is_inline, line):
        """Returns the values of a field whose colon ends at this offset, the line of the field, and those of its values."""
        at = self.at
        self.skip_to(col)
        is_next = self.at != at
        found, lines = [], []
        if self.has("{"):
            self.braced_values(found, lines)
        elif is_inline:
            self.inline_value(found, lines) if not is_next else None
        else:
            if not is_next:
                self.take(found, lines)
            while not self.is_over() and self.indent() > indent and not (self.open and self.has("}")):
                self.take(found, lines)
        return found, line, lines

    def take(self, found, lines):
        """Takes the rest of the line as a value."""
        found.append(self.rest())
        lines.append(self.number())
        self.go_to_line(self.at + 1)

    def take_to(self, end, found, lines):
        """Takes the text up to this offset as a value, if there is any, and moves on to it."""
        if value := self.text[self.col : end].strip(BLANK):
            found.append(value)
            lines.append(self.number())
        self.skip_to(end)

    def inline_value(self, found, lines):
        """Takes the value of a field behind a brace in its line: up to the next brace or the line's end."""
        self.take_to(self.brace(self.col), found, lines)

    def braced_values(self, found, lines):
        """Takes the values of a field between braces."""
        line = self.number()
        self.skip_to(self.col + 1)
        while not self.is_over() and self.text.find("}", self.col) < 0:
            self.take(found, lines)
        if self.is_over():
            raise Misread(line, "a brace that nothing closes")
        end = self.text.index("}", self.col)
        self.take_to(end, found, lines)
        self.skip_to(end + 1)


def elements(text):
    """Returns the elements of a text."""
    return Reader(text).elements(0, False, 0)


def split(field, is_braced):
    """Yields the parts of a field's entries: for each entry the texts of its lines with these lines. It ends at a comma,
    outside of braces if `is_braced`."""
    parts, depth = [], 0
    for value, line in zip(field.values, field.lines):
        start = 0
        for it in ENTRY_MARKS.finditer(value):
            depth = depth + 1 if it[0] == "{" else max(0, depth - 1) if it[0] == "}" else depth
            if it[0] == "," and not (is_braced and depth):
                yield [*parts, (value[start : it.start()].strip(), line)]
                parts, start = [], it.end()
        parts.append((value[start:].strip(), line))
    yield parts


def entries(field):
    """Returns the entries of a field between commas, each as one text with the line where it begins. Lines of an entry are
    joined by a blank. A comma in braces ends no entry, if all braces are closed. Empty entries are left out."""
    text = field.text()
    told = [[it for it in entry if it[0]] for entry in split(field, text.count("{") == text.count("}"))]
    return [(" ".join(text for text, _ in entry), entry[0][1]) for entry in told if entry]


def names(field):
    """Returns the names in a field between blanks and commas, each with its line."""
    return [(it, line) for value, line in zip(field.values, field.lines) for it in NAME_MARKS.split(value) if it]


def walk(items):
    """Yields each element and all elements in it."""
    rest = list(reversed(items))
    while rest:
        it = rest.pop()
        yield it
        if isinstance(it, Section):
            rest.extend(reversed(it.items))
