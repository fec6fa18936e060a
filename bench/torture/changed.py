"""Folders of the examples with a few bytes or lines changed: each must be answered within a second, and again in the
same way."""

import collections
import json
import os
import random

from torture.running import EXAMPLES, Others, files_of, lay_out, room, shown, side_by_side, table
from tool import files as own_files

FOLDERS = 10_000
SEED = 1
SECOND = 1.0
WORDS = (
    ["plan"],
    ["plan"],
    ["plan", "--json"],
    ["plan", "--count-conflicts"],
    ["plan", "--compiler=ghc-9.6.3"],
    ["plan", "--os=windows", "--arch=aarch64"],
    ["plan", "--max-backjumps=-1"],
    ["plan", "--max-backjumps=0"],
)
# Insertions: marks and words of the grammars, and bytes that are in no grammar.
PIECES = (
    b"{ } ( ) ! && || , : . * - _ + = == >= < ^>= ={ =={1,2} ^>={1.2,3} -any -none installed source True False 0 1 01 999999999 1000000000 "
    b"if elif else flag(f) flag(fast) os(linux) arch(x86_64) impl(ghc>=9) true false import: common library executable test-suite benchmark "
    b"foreign-library flag custom-setup setup-depends: build-depends: build-tool-depends: buildable: visibility: public name: version: id: "
    b"depends: lib-name: default: manual: build-type: Custom cabal-version: 2.4 3.0 3.4 packages: constraints: preferences: extra-packages: "
    b"allow-newer: allow-older: tests: benchmarks: all none any. setup. app core-lib base main a b c h k ./ ../ ** *.cabal */ package"
).split() + [b"\n", b"\r\n", b"\t", b" ", b"\0", b"\x7f", b"\xc3\xa9", b"\xff", b"\xef\xbb\xbf", b"\xe2\x80\xa8", b"--", b"\n  ", b"\n    "]


def some_line(draw, files):
    lines = files[draw.choice(sorted(files))].splitlines(True)
    return draw.choice(lines) if lines else b"\n"


def changed_bytes(draw, content):
    content = bytearray(content)
    at = draw.randrange(len(content) + 1)
    kind = draw.randrange(5)
    if kind == 0 and at < len(content):
        content[at] ^= 1 << draw.randrange(8)
    elif kind == 1:
        del content[at : at + draw.choice((1, 1, 2, 8))]
    elif kind == 2:
        content[at:at] = draw.choice(PIECES)
    elif kind == 3:
        content[at : at + draw.randrange(12)] = draw.choice(PIECES)
    else:
        content[at:at] = bytes([draw.randrange(256)])
    return bytes(content)


def changed_lines(draw, content, files):
    lines = content.splitlines(True)
    at = draw.randrange(len(lines) + 1)
    kind = draw.randrange(8)
    if kind == 0:
        del lines[at : at + draw.choice((1, 1, 3))]
    elif kind == 1:
        lines[at:at] = lines[at : at + draw.choice((1, 2, 5))] * draw.choice((1, 1, 3))
    elif kind == 2:
        lines.insert(at, some_line(draw, files))
    elif kind == 3 and at < len(lines):
        lines[at] = some_line(draw, files)
    elif kind == 4:
        draw.shuffle(lines)
    elif kind == 5:
        del lines[at:]
    elif kind == 6 and at < len(lines):
        lines[at] = b" " * draw.randrange(9) + lines[at].lstrip()
    else:
        lines.insert(at, b" " * draw.randrange(6) + b" ".join(draw.choices(PIECES, k=draw.randrange(1, 5))) + b"\n")
    return b"".join(lines)


def changed(draw, files):
    files = dict(files)
    for _ in range(draw.choice((1, 1, 1, 2, 2, 3, 5))):
        # The most important files are changed most often.
        path = draw.choice(sorted(files, key=lambda it: (it.count("/"), it))[:3] + sorted(files))
        kind = draw.randrange(20)
        if kind == 0 and len(files) > 1:
            del files[path]
        elif kind == 1:
            files[draw.choice(sorted(files))] = files[path]
        elif kind < 11:
            files[path] = changed_bytes(draw, files[path])
        else:
            files[path] = changed_lines(draw, files[path], files)
    return files


def tried(program, folder, words, name, others):
    """Returns the end of a run over a folder, after some checks of it."""
    once, again = (program.timed(folder, words) for _ in "ab")
    if once.status not in range(4) or once.err:
        others.add(f"{name}: {shown(once)}")
    elif (once.status, once.out) != (again.status, again.out):
        others.add(f"{name}, another answer the second time: {shown(once)} and {shown(again)}")
    # The faster of both, since the machine may have other work.
    if min(once.seconds, again.seconds) > SECOND:
        others.add(f"{name}, {min(once.seconds, again.seconds):.2f} s: {shown(once)}")
    if "--json" in words and once.status in range(3):
        told = json.loads(once.out)
        if told["status"] != ("plan", "no plan", "gave up")[once.status]:
            others.add(f"{name}, status and text differ: {shown(once)}")
    elif once.status == 3 and (not once.out.startswith(b"refused ") or once.out.count(b"\n") != 1):
        others.add(f"{name}, no refusal: {shown(once)}")
    # Whether there is a plan doesn't depend on the search.
    other = [it for it in words if it != "--count-conflicts"] if "--count-conflicts" in words else [*words, "--count-conflicts"]
    counted = program.timed(folder, other)
    if counted.status != once.status and 2 not in (counted.status, once.status):
        others.add(f"{name}: {shown(once)}, and with {other} {shown(counted)}")
    return once, min(once.seconds, again.seconds)


def examples():
    """Returns the files of each example: of each folder with a project or a package."""
    found = {}
    for at, folders, names in os.walk(EXAMPLES):
        if any(it == "cabal.project" or it.endswith(".cabal") for it in names):
            found[os.path.relpath(at, EXAMPLES)] = files_of(at)
            folders.clear()
    return dict(sorted(found.items()))


def run(program, words):
    count = int(words[0]) if words else FOLDERS
    known = examples()
    others, ends, causes, slowest = Others(), collections.Counter(), collections.Counter(), 0

    def one(number):
        draw = random.Random(SEED + number)
        name = draw.choice(sorted(known))
        files, given = changed(draw, known[name]), draw.choice(WORDS)
        with room() as work:
            folder = work.folder("folder")
            lay_out(folder, files)
            before = others.count
            found = tried(program, folder, given, f"folder {number} of {name}, {' '.join(given)}", others)
            if others.count > before and program.keep:
                own_files.made_room(program.keep).copy(folder, str(number))
        return found

    for ended, seconds in side_by_side(one, range(count)):
        ends[ended.status] += 1
        slowest = max(slowest, seconds)
        if ended.status == 3:
            causes[ended.out.split()[2].decode()] += 1
    heads = "Folders", "Plan (0)", "No plan (1)", "Gave up (2)", "Refused (3)", "Causes of refusals", "Slowest, seconds", "Other"
    table(heads, [(f"{count:,}", ends[0], ends[1], ends[2], ends[3], len(causes), f"{slowest:.3f}", others.count)])
    table(("Cause", "Folders"), causes.most_common())
    return others.count
