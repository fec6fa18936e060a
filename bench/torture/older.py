"""Files with older headers, for the program `modern-headers`: copies of real files with a few bytes or lines changed, some filled up to
1 MiB, and files of 1 MiB for each thing that a rule repeats. Each is answered within a second and 500 MB, and again in the same way; a
rewritten text is read as it is."""

import collections
import os
import random
import re

from torture.changed import SECOND, SEED, changed_bytes, changed_lines
from torture.large import MEGABYTES, MOST, filled
from torture.running import Others, lay_out, room, shown, side_by_side, table
from tool.refusal import Refusal

COPIES = 10_000
# One copy in so many is filled up with its own lines.
FILLED = 50
FILE, LIST, AGAIN = "a.cabal", "list", "again.cabal"
FRAME = re.compile(rb"\A(?:(unchanged) a\.cabal\n\Z|refused a\.cabal(?::\d+)? ([A-Za-z0-9]+)\n\Z|(rewritten) a\.cabal\n(?:change [a-z-]+(?: \d+)?\n)*bytes (\d+)\n)")
HEAD = "name: a\nversion: 1\ncabal-version: >=1.10\nbuild-type: Simple\n"
FLAT = "name: a\nversion: 1\n"
FILES = {
    "executables with odd names": filled(HEAD, lambda it: f"executable e.{it}\n  main-is: M\n"),
    "executables with names that become one": filled(HEAD, lambda it: f"executable e{'.+,~'[it % 4]}{'.' * (it % 9)}x\n"),
    "executables of fields alone": filled(FLAT, lambda it: f"executable: e{it}\nmain-is: M\n"),
    "executables that share dependencies": filled(FLAT + "build-depends: base" + " , base" * 60_000 + "\n", lambda it: f"executable: e{it}\n"),
    "fields alone": filled(FLAT, lambda it: f"ghc-options: -O{it}\n"),
    "tools": filled(HEAD + "library\n  build-tools: ", lambda it: f"t{it}", between=", ", tail="\n"),
    "fields of tools": filled(HEAD + "executable alex\nlibrary\n", "  build-tools: alex, happy\n"),
    "braces on a line": filled(HEAD, "library { if true { buildable: True } else { buildable: False } }\n"),
    "nested braces": HEAD + "library {\n" + "if true {\n" * 60_000 + "}\n" * 60_001,
    "pieces of a line": filled(HEAD + "library { ", "buildable: True } executable e { ", tail="}\n"),
    "lines of dependencies": filled(HEAD + "library\n  build-depends:\n", lambda it: f"    p{it} >=1 && <2,\n", tail="    base\n"),
    "branches": filled(HEAD + "library\n", lambda it: f"  if flag(f{it})\n    build-depends: a\n"),
    "comments": filled(HEAD, "-- nothing\n"),
    "bytes that aren't UTF-8": filled(HEAD + "description:\n", "  caf\u00e9\n").encode("latin-1"),
    "blanks beyond ASCII": filled(HEAD + "library\n", "\u00a0\u00a0buildable: True\n", most=MOST // 2),
    "headers": filled(HEAD, "cabal-version: >=1.10\n"),
    "custom fields": filled(HEAD, lambda it: f"x-{it}: a\n"),
}


def texts(folder):
    """Returns the bytes of the `.cabal` files below a folder, in the order of their paths."""
    found = {}
    for at, _, names in os.walk(folder):
        for name in (it for it in names if it.endswith(".cabal")):
            with open(f"{at}/{name}", "rb") as file:
                found[f"{at}/{name}"] = file.read()
    if not found:
        raise Refusal(f"{folder} has no .cabal file")
    return [found[it] for it in sorted(found)]


def copy(number, known):
    """Returns a changed copy of one of these texts."""
    draw = random.Random(SEED + number)
    content = draw.choice(known)
    for _ in range(draw.choice((1, 1, 2, 3, 5))):
        content = changed_bytes(draw, content) if draw.random() < 0.5 else changed_lines(draw, content, {FILE: content})
    if number % FILLED == 0 and content:
        content *= max(1, MOST // len(content))
    return content


def tried(program, content, name, others):
    """Returns the frame of a file, after some checks of it."""
    with room() as work:
        folder = work.folder("folder")
        lay_out(folder, {FILE: content, LIST: f"{FILE}\n".encode()})
        once, again = (program.timed(folder, [LIST]) for _ in "ab")
        frame = FRAME.match(once.out)
        if once.status or once.err or not frame or (frame[4] and len(once.out) != frame.end() + int(frame[4]) + 1):
            others.add(f"{name}: {shown(once)}")
        elif once.out != again.out:
            others.add(f"{name}, another answer the second time: {shown(once)} and {shown(again)}")
        # The faster of both, since the machine may have other work.
        if min(once.seconds, again.seconds) > SECOND or once.megabytes > MEGABYTES:
            others.add(f"{name}, {min(once.seconds, again.seconds):.2f} s, {once.megabytes:.0f} MB: {shown(once)}")
        if frame and frame[3]:
            lay_out(folder, {AGAIN: once.out[frame.end() : -1], LIST: f"{AGAIN}\n".encode()})
            second = program.timed(folder, [LIST])
            if second.out != f"unchanged {AGAIN}\n".encode():
                others.add(f"{name}, a rewritten text isn't read: {shown(second)}")
    kind = next((it.decode() for it in frame.groups()[:3] if it), "") if frame else "other"
    return kind, min(once.seconds, again.seconds), once.megabytes


def run(program, words):
    """Tries changed copies of the files below a folder, and large files. words: the folder, and how many copies."""
    known, count = texts(words[0]), int(words[1]) if words[1:] else COPIES
    others, ends, slowest, most = Others(), collections.Counter(), 0, 0
    for kind, seconds, megabytes in side_by_side(lambda it: tried(program, copy(it, known), f"copy {it}", others), range(count)):
        ends[kind] += 1
        slowest, most = max(slowest, seconds), max(most, megabytes)
    refused = {it: ends[it] for it in ends if it not in ("unchanged", "rewritten", "other")}
    heads = "Copies", "Unchanged", "Rewritten", "Refused", "Causes of refusals", "Slowest, seconds", "Most MB", "Other"
    table(heads, [(f"{count:,}", ends["unchanged"], ends["rewritten"], sum(refused.values()), len(refused), f"{slowest:.3f}", f"{most:.0f}", others.count)])
    rows = []
    for name, text in FILES.items():
        content = text if isinstance(text, bytes) else text.encode()
        kind, seconds, megabytes = tried(program, content, name, others)
        rows.append((name, f"{len(content):,}", kind, f"{seconds:.2f}", f"{megabytes:.0f}"))
    table(("File", "Bytes", "Answer", "Seconds", "MB"), rows)
    return others.count
