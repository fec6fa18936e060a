"""Version ranges, to explain a proved answer.

In: the text of a range, and versions. Out: whether a version is in it, or none where the text can't be read. The answer
itself is the program's: no range is decided here for it."""

import functools
import re

TOKEN = re.compile(r"\s*(\|\||&&|\^>=|==|>=|<=|>|<|[(){},]|-any|-none|[0-9]+(?:\.[0-9]+)*(?:\.\*)?)")
MARKS = ("^>=", "==", ">=", "<=", ">", "<")
DEEPEST = 64


class Unread(Exception):
    """A range that can't be read."""


def version(text):
    """Returns the numbers of a version, or none."""
    return tuple(map(int, text.split("."))) if re.fullmatch(r"[0-9]{1,9}(\.[0-9]{1,9})*", text) else None


def above(numbers):
    """Returns the first version above all that begin with these numbers."""
    return (*numbers[:-1], numbers[-1] + 1)


def major(numbers):
    """Returns the first version of the next major version."""
    return above((*numbers, 0)[:2])


def test_of(mark, numbers, is_prefix):
    """Returns the test of one bound."""
    if is_prefix:
        if mark != "==":
            raise Unread
        return lambda it: numbers <= it < above(numbers)
    return {
        "==": lambda it: it == numbers,
        ">=": lambda it: it >= numbers,
        "<=": lambda it: it <= numbers,
        ">": lambda it: it > numbers,
        "<": lambda it: it < numbers,
        "^>=": lambda it: numbers <= it < major(numbers),
    }[mark]


class Reader:
    """The state of a reading: the tokens, and how many of them are read."""

    def __init__(self, text):
        self.tokens, self.at, self.depth = TOKEN.findall(text), 0, 0
        if "".join(self.tokens) != re.sub(r"\s+", "", text):
            raise Unread

    def next(self):
        return self.tokens[self.at] if self.at < len(self.tokens) else None

    def take(self, token=None):
        found = self.next()
        if found is None or token not in (None, found):
            raise Unread
        self.at += 1
        return found

    def joined(self, mark, part, join):
        """Reads ranges between marks."""
        found = [part()]
        while self.next() == mark:
            self.take()
            found.append(part())
        return lambda it: join(test(it) for test in found)

    def either(self):
        return self.joined("||", self.both, any)

    def both(self):
        return self.joined("&&", self.one, all)

    def one(self):
        """Reads one bound, a set of versions, or a range in parentheses."""
        self.depth += 1
        if self.depth > DEEPEST:
            raise Unread
        token = self.take()
        if token == "(":
            found = self.either()
            self.take(")")
        elif token in ("-any", "-none"):
            found = lambda _: token == "-any"
        elif token in MARKS:
            found = self.versions(token)
        else:
            raise Unread
        self.depth -= 1
        return found

    def versions(self, mark):
        """Reads the version behind a mark, or versions in braces."""
        if self.next() != "{":
            return self.bound(mark, self.take())
        self.take()
        found = [self.bound(mark, self.take())]
        while self.next() == ",":
            self.take()
            found.append(self.bound(mark, self.take()))
        self.take("}")
        return lambda it: any(test(it) for test in found)

    def bound(self, mark, text):
        numbers = version(text.removesuffix(".*"))
        if numbers is None:
            raise Unread
        return test_of(mark, numbers, text.endswith(".*"))


@functools.lru_cache(maxsize=1 << 14)
def test(text):
    """Returns the test of a range, or none if it can't be read."""
    if not text.strip():
        return lambda _: True
    try:
        reader = Reader(text)
        found = reader.either()
        return found if reader.next() is None else None
    except Unread:
        return None


def admits(text, shown):
    """Returns whether a range has a version in it, or none if one of them can't be read."""
    told, numbers = test(text), version(shown)
    return None if told is None or numbers is None else told(numbers)
