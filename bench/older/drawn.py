"""Random `.cabal` files, by number. In: a number. Out: the bytes of a file with braces, layouts and indents of all kinds, some of them wrong."""

import random

FIELDS = ("build-depends", "Build-Depends", "buildable", "ghc-options", "x-a", "build-tools", "other-modules", "default")
VALUES = ("base", "base, bytes", "True", "False", "alex", "A B", "base >= 4 && < 5", "a { b", "a } b", "-- text", "a: b", "")
HEADS = ("library", "Library", "executable e", 'executable "e f"', "flag f", "common c", "test-suite t-1", "foo", "foo a.b (c) || d", "custom-setup")
INNER = ("if flag(f)", "if os(linux) && !flag(f)", "else", "elif os(osx)", "foo", "if true -- a remark")
ABOVE = ("cabal-version: >=1.10", "cabal-version: 1.12", "cabal-version: 2.2", "cabal-version: 2.4", "cabal-version: 3.0", "")
BETWEEN = ("", "  ", "-- a remark", "    -- a remark }", "\t", "\u00a0")


class Draw:
    """The state of a drawing: the source of chance, and the lines so far."""

    def __init__(self, number):
        self.chance, self.lines = random.Random(number), []

    def one(self, its):
        return self.chance.choice(its)

    def is_rare(self, per_cent):
        return self.chance.randrange(100) < per_cent

    def line(self, indent, text):
        if self.is_rare(6):
            self.lines.append(self.one(BETWEEN))
        if self.is_rare(3):
            indent += self.one((-2, -1, 1, 2))
        self.lines.append(" " * max(0, indent) + text)

    def joined(self, text):
        """Adds text to the last line."""
        self.lines[-1] += text

    def field(self, indent):
        """A field in one of its forms."""
        name, value, form = self.one(FIELDS), self.one(VALUES), self.chance.randrange(12)
        if form < 6:
            self.line(indent, f"{name}: {value}")
        elif form == 6:
            self.line(indent, f"{name}:")
            self.line(indent + self.one((1, 2, 4, 0)), value)
        elif form == 7:
            self.line(indent, f"{name}: {value}")
            self.line(indent + self.one((1, 3, 6)), self.one(VALUES))
        elif form == 8:
            self.line(indent, f"{name}: {{ {value} }}")
        elif form == 9:
            self.line(indent, f"{name}: {{")
            self.line(indent + 1, value)
            self.line(self.one((0, indent, indent + 3)), "}")
        elif form == 10:
            self.line(indent, f"{name}:")
            self.line(self.one((0, indent, indent + 2)), f"{{ {value}")
            self.line(indent, "}")
        else:
            self.line(indent, f"{name} :{value}  ")

    def inline(self, depth):
        """Returns items on one line."""
        found = []
        for _ in range(self.chance.randrange(3)):
            if self.is_rare(40) and depth:
                found.append(f"{self.one(INNER[:4])} {{ {self.inline(depth - 1)} }}")
                continue
            name, value = self.one(FIELDS), self.one(VALUES[:6])
            found.append(f"{name}: {{ {value} }}" if self.is_rare(50) else f"{name}: {value}")
        return " ".join(found)

    def items(self, indent, depth):
        for _ in range(self.chance.randrange(4)):
            if depth and self.is_rare(35):
                self.section(indent, self.one(INNER), depth - 1)
            else:
                self.field(indent)

    def section(self, indent, head, depth):
        """A section in one of its forms."""
        form = self.chance.randrange(10)
        if form < 5:
            self.line(indent, head)
            self.items(indent + self.one((1, 2, 2, 4, 8)), depth)
            return
        if form == 5:
            self.line(indent, f"{head} {{ {self.inline(depth)} }}")
            return
        if form < 8:
            self.line(indent, head + self.one((" {", "{", " {  ", " { -- a remark")))
        else:
            self.line(indent, head)
            self.line(self.one((0, indent, indent + 2)), self.one(("{", "{", "{ build-depends: a", "{ if flag(f) {}")))
        self.items(self.one((indent + 2, indent + 2, indent, 0)), depth)
        self.line(self.one((indent, indent, 0, indent + 3)), "}" + self.one(("", "", "", " -- a remark", " }", " buildable: True", " foo {", "}")))
        if self.is_rare(30):
            self.joined(f" {self.one(INNER)} {{")
            self.items(indent + 2, 0)
            self.line(indent, "}")

    def text(self):
        lines = [self.one(ABOVE), "name: p", "version: 1", *(["build-type: Simple"] if self.is_rare(80) else [])]
        self.lines = [it for it in lines if it]
        for _ in range(self.chance.randrange(1, 5)):
            self.section(0, self.one(HEADS), 3)
        ends = self.one(("\n", "\n", "\n", "\n", "\r\n", "\r"))
        found = ends.join(self.lines) + self.one((ends, ends, ""))
        if self.is_rare(10):
            found = found.replace("  ", "\t", self.chance.randrange(1, 4))
        if self.is_rare(4):
            found = found.replace("  ", "\u00a0", 1)
        return found


def drawn(number):
    """Returns the bytes of the file of a number."""
    draw = Draw(number)
    found = draw.text().encode()
    return b"\xef\xbb\xbf" + found if draw.is_rare(2) else found


__all__ = ["drawn"]
