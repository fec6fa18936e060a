"""The conditions of a project file, before a compiler is known.

Input: the text of a condition, and a system and processor. Output: whether it holds: yes, no, or none where that depends on
the compiler or on a flag, or where the text can't be read."""

import re

TOKEN = re.compile(r"\s*(&&|\|\||!|\(|\)|[^\s()!&|]+)")
TESTS = ("os", "arch", "impl", "flag", "compiler")
DEEPEST = 64


class Platform:
    """A system and a processor, in the planner's words."""

    def __init__(self, os, arch):
        self.os, self.arch = os, arch


class Unread(Exception):
    """A condition that can't be read."""


class Reader:
    """The state of a reading: the tokens, and how many of them are read."""

    def __init__(self, text, platform):
        self.tokens, self.at, self.platform, self.depth = TOKEN.findall(text), 0, platform, 0
        if "".join(self.tokens) != re.sub(r"\s+", "", text):
            raise Unread

    def next(self):
        return self.tokens[self.at] if self.at < len(self.tokens) else None

    def take(self, token=None):
        found = self.next()
        if found is None or token not in (None, found):
            raise Unread
        self.at += 1
        return found

    def either(self):
        """Reads conditions between `||`."""
        value = self.both()
        while self.next() == "||":
            self.take()
            other = self.both()
            value = True if True in (value, other) else None if None in (value, other) else False
        return value

    def both(self):
        """Reads conditions between `&&`."""
        value = self.one()
        while self.next() == "&&":
            self.take()
            other = self.one()
            value = False if False in (value, other) else None if None in (value, other) else True
        return value

    def one(self):
        """Reads a test, or a condition behind `!` or in parentheses."""
        self.depth += 1
        if self.depth > DEEPEST:
            raise Unread
        token = self.take()
        if token == "!":
            inner = self.one()
            value = None if inner is None else not inner
        elif token == "(":
            value = self.either()
            self.take(")")
        else:
            value = self.test(token.lower())
        self.depth -= 1
        return value

    def test(self, word):
        if word in ("true", "false"):
            return word == "true"
        if word not in TESTS:
            raise Unread
        self.take("(")
        inner = []
        while self.next() not in (")", None):
            inner.append(self.take())
        self.take(")")
        if word in ("os", "arch") and len(inner) == 1:
            return inner[0].lower() == getattr(self.platform, word)
        return None


def value(text, platform):
    """Returns whether a condition holds on a platform, or none where that isn't known."""
    try:
        reader = Reader(text, platform)
        found = reader.either()
        return found if reader.next() is None else None
    except Unread:
        return None
