"""Finds the packages that a project can reach.

Input: an index, the first names, the records of units, and which files can be read. Output: for each reached name its
versions. A name is reached if a dependency field of a reached package has it, under any condition, or if a record of
one needs its unit. The planner reads no more than this. Test suites and benchmarks of an index's packages are in no
plan, so names that only they have can be left out."""

import bisect
import functools
import re

from tool.folder.index import by_number
from tool.input import MOST, MOST_BYTES, MOST_FILES

# How the names of dependency fields end, and these names.
END = re.compile(rb"-(?:depends|tools)")
NAMES = (b"build-depends", b"build-tool-depends", b"build-tools", b"setup-depends")
COLON = re.compile(rb"[ \t]*:(?:\s*(\{))?")
# A dependency field at the front of a line, with its indent.
FIELD = re.compile(rb"\n([ \t]*)(?:build-(?:tool-)?depends|build-tools|setup-depends)[ \t]*:")
INLINE = re.compile(rb"[{}\n]")
BLANKS, BRACES, LINE = b" \t", b"{}", ord("\n")
COMMENT = re.compile(rb"(?m)^[ \t]*--[^\n]*$")
NAME = re.compile(rb",\s*([A-Za-z0-9]+(?:-[A-Za-z0-9]+)*)")
# Sections that are built only for a local package. They begin at the front of a line, and so does the next element.
SUITE, NEXT = re.compile(rb"\n(?:test-suite|benchmark)"), re.compile(rb"\n[a-z]")
HAS_SETUP = re.compile(rb"build-type[ \t]*:\s*(?:simple|configure|make)\b")
OF_SETUP = {b"base", b"Cabal"}


@functools.lru_cache(maxsize=256)
def ending(indent):
    """Returns the pattern of the end of a field: a line no deeper than the field, which is no comment."""
    return re.compile(rb"\n(?=([ \t]{0,%d}))\1(?![ \t\r\n]|--)" % indent)


def beginning(low, end):
    """Returns where the dependency field begins whose name ends there, and its indent, or none behind a brace. Without
    such a field it returns none."""
    start = next((end - len(it) for it in NAMES if low.startswith(it, end - len(it), end)), None)
    if start is None:
        return None
    at = start
    while at > 0 and low[at - 1] in BLANKS:
        at -= 1
    if at > 0 and low[at - 1] in BRACES:
        return start, None
    return (start, start - at) if at == 0 or low[at - 1] == LINE else None


def dependency_fields(data, low):
    """Yields the place and the text of each dependency field. `low` is the same text in lower case. No text of a field
    is looked through again."""
    return braced_fields(data, low) if b"{" in low or b"}" in low else plain_fields(data, low)


def plain_fields(data, low):
    """Yields the dependency fields of a text without braces. Each is at the front of a line."""
    done = 0
    for it in FIELD.finditer(b"\n" + low):
        begin, start, size = it.end(1) - 1, it.end() - 1, it.end(1) - it.start(1)
        if start > done:
            last = ending(size).search(data, start)
            done = last.start() if last else len(data)
            yield begin, data[start:done]


def braced_fields(data, low):
    """Yields the dependency fields of a text that can have some within braces or on a line with other elements."""
    done, close = 0, -1
    for end in [it.end() for it in END.finditer(low)]:
        found = beginning(low, end) if end > done else None
        colon = COLON.match(low, end) if found else None
        if not colon:
            continue
        begin, indent = found
        if colon[1] and close < colon.end():
            close = low.find(b"}", colon.end())
            close = len(low) if close < 0 else close
        if colon[1] and close < len(low):
            start, done = colon.end(), close
        else:
            last = (INLINE if indent is None else ending(indent)).search(data, colon.end())
            start, done = colon.end(), last.start() if last else len(data)
        yield begin, data[start:done]


def suites(low):
    """Returns where test suites and benchmarks begin, and where each of them ends."""
    begins = [it.start() for it in SUITE.finditer(low)]
    ends = [NEXT.search(low, at + 1) for at in begins]
    return begins, [it.start() if it else len(low) for it in ends]


def mentioned(data):
    """Returns the names in the dependency fields of a file, with the implicit ones of a setup script; and those of them
    outside of test suites and benchmarks."""
    low = data.lower()
    unsaid = set() if HAS_SETUP.search(low) else OF_SETUP
    begins, ends = suites(low)
    full, lean = set(unsaid), set(unsaid)
    for at, text in dependency_fields(data, low):
        found = NAME.findall(b"," + (COMMENT.sub(b"", text) if b"--" in text else text))
        full.update(found)
        suite = bisect.bisect_right(begins, at) - 1
        if suite < 0 or at >= ends[suite]:
            lean.update(found)
    return full, lean


def of_units(records):
    """Returns for each package the names of the packages whose units its units need."""
    names = {it.unit: it.name for it in records}
    found = {}
    for it in records:
        found.setdefault(it.name, set()).update(names[unit] for unit in it.needs if unit in names)
    return found


class Closure:
    """What a project reaches in an index: for each name its versions, the names that it mentions, and the bytes of its
    files. `can_read` is whether a file can be read; without it all can."""

    def __init__(self, index, records, can_read, newest):
        self.index, self.units, self.can_read, self.newest, self.records = index, of_units(records), can_read, newest, len(records)
        self.listed, self.versions, self.full, self.lean, self.sizes = {}, {}, {}, {}, {}

    def is_good(self, data):
        """Returns whether the planner reads a file."""
        return len(data) <= MOST and (not self.can_read or self.can_read(data))

    def there(self, name):
        """Returns all versions of a name in the index."""
        if name not in self.listed:
            self.listed[name] = self.index.versions(name)
        return self.listed[name]

    def read(self, name):
        """Reads the files of a name: all versions, or at most `newest`, the readable ones first."""
        good, bad, full, lean = {}, {}, set(), set()
        there = sorted(self.there(name), key=by_number, reverse=True)
        # So many are refused, whatever stands in them.
        is_refused = not self.newest and len(there) > MOST_FILES
        for version in [] if is_refused else there:
            if self.newest and len(good) == self.newest:
                break
            data = self.index.data(name, version)
            (good if self.is_good(data) else bad)[version] = len(data)
            if version in good:
                of_full, of_lean = mentioned(data)
                full.update(of_full)
                lean.update(of_lean)
        kept = dict.fromkeys(there, 0) if is_refused else dict([*good.items(), *bad.items()][: self.newest])
        self.versions[name], self.sizes[name] = sorted(kept, key=by_number), sum(kept.values())
        units = self.units.get(name, set())
        self.full[name], self.lean[name] = ({it.decode() for it in found} | units for found in (full, lean))

    def reach(self, roots, locals_):
        """Returns the names that are reached from `roots`, and whether those are left out that only suites reach, since
        all are too many. Local names have no versions."""
        for name in locals_:
            self.listed[name], self.versions[name], self.sizes[name] = [], [], 0
            self.full[name] = self.lean[name] = self.units.get(name, set())
        lean = self.spread(roots, self.lean, False)
        full = self.spread(lean, self.full, True)
        return (lean, True) if self.is_too_much(full) else (full, False)

    def spread(self, roots, mentions, can_stop):
        """Returns all names that mentions reach. With `can_stop` it stops once their files are too many, whatever stands in
        those that aren't read yet."""
        found, rest, files = set(roots), list(roots), self.count(roots)
        while rest and not (can_stop and self.is_too_many(files)):
            name = rest.pop()
            if name not in self.versions:
                self.read(name)
            new = mentions[name] - found
            found |= new
            rest.extend(new)
            files += self.count(new)
        return found

    def count(self, names):
        """Returns how many files of these names are kept."""
        counts = (len(self.there(it)) for it in names)
        return sum(min(it, self.newest) for it in counts) if self.newest else sum(counts)

    def is_too_many(self, files):
        return self.records + files > MOST_FILES

    def is_too_much(self, names):
        """Returns whether the planner would refuse the files of these names as too many, or as too large."""
        return self.is_too_many(self.count(names)) or sum(self.sizes[it] for it in names) > MOST_BYTES

    def fitting(self, names):
        """Returns how many versions of each name the planner would accept, or 0 if not even one."""
        counts = [len(self.versions[it]) for it in names]
        return max((n for n in range(1, max(counts, default=0) + 1) if self.records + sum(min(n, it) for it in counts) <= MOST_FILES), default=0)
