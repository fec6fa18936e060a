"""Reads the files of cases: folders, the words of runs over them, and the exact output of each run.

A line with one of these marks at its front is a line of the notation. Every other line is content of the file or
output above it.

    # TEXT                      a remark
    === NAME                    begins a case
    --- PATH                    begins a file of the folder; the lines below are its content
    + local NAME VERSION [DEPENDS]          NAME.cabal, a package with a library that depends on these
    + source NAME VERSION [DEPENDS]         the same file as index/NAME/VERSION/NAME.cabal
    + plain PATH NAME VERSION [DEPENDS]     the same file at this path
    + unit ID NAME VERSION [DEPENDS]        installed/ID.conf, the record of a unit that depends on these identifiers
    + units ID ..                           such records, each ID of the form NAME-VERSION, without dependencies
    + link PATH TARGET                      a symbolic link; a case with one is run only over a folder of the system
    $ WORDS [=> STATUS]         begins a run of these words with this status (default 0); the lines below are its output
    $ WORDS => STATUS sha256 DIGEST         the same for a long output: its digest, and below its first and last lines
                                around a line `...`
    $ WORDS ! call N [=> STATUS]            a run whose call N on the folder fails, counted from 1
    $ WORDS ! calls N           the run above, which makes N calls on the folder: each fails in turn. It prints nothing
                                and ends with status 4. A second run over the same folder answers as the run above
    $ WORDS ! writes N          the run above: each write fails in turn, with N bytes a write. It ends with status 5,
                                after the output of the earlier writes
    $ WORDS ! bytes             the run above: the sink has room for each smaller number of bytes in turn. It ends with
                                status 5, after so many bytes of output
    $ WORDS ! cuts              each file is truncated after each of its bytes in turn: the run finds a plan or none, or
                                refuses, and a second run does the same
    @ FIELD [@ FIELD ..]        repeats the whole case with these fields in place of %1, %2, ..
    * FIRST..LAST LINES         repeats these lines, which a `\\n` separates, for each number, with the number in place
                                of %n and the next one in place of %m

In content, output and the words of a run `\\n` is a line end, `\\t` a tab, `\\r` a carriage return, `\\s` a blank and
`\\xHH` a byte. A backslash before any other character means that character, so a backslash before a mark makes the
line content. A backslash at the end of a line removes its line end; at the end of a word it means nothing, so a word
`\\` is the empty one. A line `\\pad SIZE` fills up the content above it with blanks to so many bytes. Empty lines at
the end of a file or an output are ignored.
"""

import os
import re

from tool.program import MODERN, PLANNER, TOP

DATA = f"{TOP}/crates/case_runs/data"
ARGS = f"{TOP}/crates/case_runs/args"
MARKS = ("# ", "--- ", "+ ", "$ ")
BEGIN, ROW, REPEAT = "=== ", "@ ", "* "
KINDS = ("local", "source", "plain", "unit", "units", "link")
# The faults of a run, and whether a number follows.
FAILING = {"call": True, "calls": True, "writes": True, "bytes": False, "cuts": False}
ESCAPES = {b"n": b"\n", b"t": b"\t", b"r": b"\r", b"s": b" "}


class BadCase(Exception):
    pass


class Run:
    """A run: its program, its words, its fault, the status, and the output or, of a long one, its digest and its ends."""

    def __init__(self, case, line, failing, status, digest, output):
        written = [it for it in line.split(" ") if it]
        self.program = MODERN if written[:1] == [MODERN] else PLANNER
        self.words = [os.fsdecode(word_of(it)) for it in written[self.program == MODERN :]]
        self.case, self.line, self.failing, self.status, self.digest, self.output = case, line, failing, status, digest, output


class Case:
    """A case: its name, its line, its files and the targets of its links by path, and its runs."""

    def __init__(self, subject, name, line):
        self.subject, self.name, self.line, self.files, self.links, self.runs = subject, name, line, {}, {}, []


def names():
    """Returns the names of the files of cases, as the arguments of the program of cases."""
    with open(ARGS, encoding="utf-8") as lines:
        return lines.read().split("\n")[:-1]


def filled(line, fields):
    for number, field in enumerate(fields, 1):
        line = line.replace(f"%{number}", field)
    return line


def repeated(line):
    """Returns the lines that a line repeats, or the line itself."""
    told = re.match(r"\* (\d+)\.\.(\d+) (.*)$", line)
    if told is None:
        return [line]
    numbers = range(int(told[1]), int(told[2]) + 1)
    return [it for n in numbers for it in told[3].replace("%n", str(n)).replace("%m", str(n + 1)).replace("\\n", "\n").split("\n")]


def unescaped(raw, ends):
    """Returns the bytes of a line of content, or of a word. A backslash at its end takes away what ends it."""
    found = bytearray()
    at = 0
    while at < len(raw):
        sign = raw[at : at + 1]
        at += 1
        if sign != b"\\":
            found += sign
            continue
        sign = raw[at : at + 1]
        at += 1
        if not sign:
            ends = b""
        elif sign == b"x":
            found.append(int(raw[at : at + 2], 16))
            at += 2
        else:
            found += ESCAPES.get(sign, sign)
    return bytes(found) + ends


def word_of(written):
    """Returns the bytes of a word of a run."""
    return unescaped(written.encode(), b"")


def bytes_of(lines):
    """Returns the bytes of lines of content."""
    while lines and not lines[-1]:
        lines = lines[:-1]
    found = bytearray()
    for line in lines:
        if line.startswith("\\pad "):
            found = found.ljust(int(line[5:]))
        elif "\\" in line:
            found += unescaped(line.encode(), b"\n")
        else:
            found += line.encode() + b"\n"
    return bytes(found)


def plain(name, version, depends):
    lines = f"cabal-version: 2.4\nname: {name}\nversion: {version}\nlibrary\n"
    return (lines + f"  build-depends: {depends}\n" * bool(depends)).encode()


def record(unit, name, version, depends):
    return (f"name: {name}\nversion: {version}\nid: {unit}\n" + f"depends: {depends}\n" * bool(depends)).encode()


def made(words, files):
    """Adds the files of a short form."""
    kind, rest = words.split(" ", 1)
    cut = lambda count: (rest.split(" ", count) + [""] * count)[: count + 1]
    if kind == "local":
        name, version, depends = cut(2)
        files[f"{name}.cabal"] = plain(name, version, depends)
    elif kind == "source":
        name, version, depends = cut(2)
        files[f"index/{name}/{version}/{name}.cabal"] = plain(name, version, depends)
    elif kind == "plain":
        path, name, version, depends = cut(3)
        files[path] = plain(name, version, depends)
    elif kind == "unit":
        unit, name, version, depends = cut(3)
        files[f"installed/{unit}.conf"] = record(unit, name, version, depends)
    elif kind == "units":
        for unit in rest.split(" "):
            files[f"installed/{unit}.conf"] = record(unit, *unit.rsplit("-", 1), "")
    else:
        raise BadCase(f"no short form begins with {kind}")


def run_of(case, line, output):
    told = re.match(r"\$ (.*?)(?: ! ([a-z]+(?: \d+)?))?(?: => (\d+)(?: sha256 ([0-9a-f]{64}))?)?$", line)
    case.runs.append(Run(case, told[1], told[2], int(told[3] or 0), told[4], bytes_of(output)))


def take(case, block):
    """Adds a block to its case: a line with a mark, and the lines below it."""
    head, content = block[0], block[1:]
    if head.startswith("--- "):
        case.files[head[4:]] = bytes_of(content)
    elif head.startswith("$ "):
        run_of(case, head, content)
    elif any(content):
        raise BadCase(f"{case.subject}:{case.line}: no file or output begins above {next(it for it in content if it)!r}")
    elif head.startswith("+ link "):
        path, case.links[path] = head[len("+ link ") :].split(" ", 1)
    elif head.startswith("+ "):
        made(head[2:], case.files)


def case_of(subject, line, lines, fields):
    """Returns the case of these lines, with these fields filled in."""
    lines = [it for line in lines for it in repeated(filled(line, fields))]
    case, block = Case(subject, lines[0][len(BEGIN) :], line), [lines[0]]
    for it in lines[1:]:
        if it.startswith(MARKS):
            take(case, block)
            block = [it]
        else:
            block.append(it)
    take(case, block)
    return case


def cases_in(subject, text):
    """Yields the cases of a text, each with the number of its first line."""
    found = []
    for number, line in enumerate(text.split("\n"), 1):
        if line.startswith(BEGIN):
            found.append((number, []))
        if found:
            found[-1][1].append(line)
        elif line and not line.startswith("# "):
            raise BadCase(f"{subject}:{number}: no case begins above this line")
    for number, lines in found:
        rows = [it[len(ROW) :].split(" @ ") for it in lines if it.startswith(ROW)]
        lines = [it for it in lines if not it.startswith(ROW)]
        for fields in rows or [[]]:
            yield case_of(subject, number, lines, fields)


def faults(subject):
    """Returns what is wrong with the form of a file of cases. The program of cases ignores such lines."""
    with open(f"{DATA}/{subject}", encoding="utf-8") as file:
        lines = file.read().split("\n")
    found = [] if lines[0].startswith("# ") else [f"{subject}:1: the first line is no remark"]
    for number, line in enumerate(lines, 1):
        kind = re.match(r"(?:\* \d+\.\.\d+ )?\+ (\S+)", line)
        if kind and kind[1] not in KINDS:
            found.append(f"{subject}:{number}: no short form begins with {kind[1]}")
        failing = re.match(r"\$ .* ! (\S*)( \d+)?(?: => .*)?$", line)
        if failing and FAILING.get(failing[1]) is not bool(failing[2]):
            found.append(f"{subject}:{number}: nothing fails in the form {failing[1]!r}")
    return found


def count(subject):
    """Returns how many runs the cases of a file make."""
    with open(f"{DATA}/{subject}", encoding="utf-8") as file:
        written = file.read().split(f"\n{BEGIN}")[1:]
    lines = [case.split("\n") for case in written]
    return sum(sum(it.startswith("$ ") for it in case) * max(1, sum(it.startswith(ROW) for it in case)) for case in lines)


def cases(subject):
    with open(f"{DATA}/{subject}", encoding="utf-8") as file:
        yield from cases_in(subject, file.read())


def is_right(run, output):
    """Returns whether an output is the wanted one."""
    if run.digest is None:
        return output == run.output
    import hashlib

    first, _, last = run.output.partition(b"...\n")
    return hashlib.sha256(output).hexdigest() == run.digest and output.startswith(first) and output.endswith(last)
