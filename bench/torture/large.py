"""Files of 1 MiB for each construct that a grammar nests or repeats: the answer, the seconds and the megabytes, under
the usual stack of 8 MiB."""

import sys

from torture.folders import plain
from torture.running import PATIENCE, Others, lay_out, room, table

MOST = 1_048_576
RECORDS = 20_000
HEAD = "cabal-version: 3.0\nname: main\nversion: 1\n"
FLAG = "flag f\n"
ONE = {"index/a/1/a.cabal": plain("a", 1)}
LOCAL = {"main.cabal": plain("main", 1, ["a"]), **ONE}
# Runs that take more are marked.
SECONDS, MEGABYTES = 2, 500


def filled(head, unit, tail="", between="", most=MOST):
    """A text of just below 1 MiB: a head, as many units as fit, and a tail. unit: a text, or a function of a number."""
    make = unit if callable(unit) else lambda _: unit
    parts, left = [], most - len(head) - len(tail)
    while left >= len(piece := make(len(parts)) + between):
        parts.append(piece)
        left -= len(piece)
    return head + "".join(parts)[: -len(between) or None] + tail


def nested(opening, closing, middle):
    """As many nested pairs as fit."""
    count = (MOST - len(HEAD) - 1_000) // (len(opening) + len(closing))
    return opening * count + middle + closing * count


def package(text):
    return {"main.cabal": text, **ONE}


def library(text, flags=FLAG):
    return package(f"{HEAD}{flags}library\n{text}")


def declared(count):
    return "".join(f"flag f{it}\n" for it in range(count))


def in_turn(count):
    """A chain of branches on so many flags in turn, with a dependency in each."""
    head = f"{HEAD}{declared(count)}library\n  if flag(f0)\n    build-depends: a\n"
    return package(filled(head, lambda it: f"  elif flag(f{(it + 1) % count})\n    build-depends: a\n", most=MOST - 200))


def differing(indent, count=19_000):
    """Branches on a flag of their own each, with a dependency in each."""
    return "".join(f"{indent}elif flag(f{it})\n{indent}  build-depends: a\n" for it in range(count))


def depends(text):
    return library(f"  build-depends: a {text}\n")


def condition(text, more="    build-depends: a\n"):
    return library(f"  if {text}\n{more}")


def chained(head, unit, between):
    return filled(head, unit, between=between, most=MOST - 200)


def project(text, local=LOCAL):
    return {"cabal.project": f"packages: .\n{text}", **local}


def deep_sections():
    text, depth = "library\n", 1
    while len(text) + depth + 10 < MOST - len(HEAD):
        text += " " * depth + "if true\n"
        depth += 1
    return package(HEAD + text)


def record(name, needs):
    return f"name: {name}\nversion: 1\nid: {name}-1\ndepends: {needs}\n"


def units(count, needs):
    return {**{f"installed/u{it}.conf": record(f"u{it}", needs(it)) for it in range(count)}, "main.cabal": plain("main", 1, ["u0"])}


def internal(ring):
    """Libraries of one package that each need the next one."""
    text = filled(HEAD, lambda it: f"library l{it}\n  build-depends: main:l{it + 1}\n", most=MOST - 100)
    count = text.count("library")
    return package(text + f"library l{count}\n" + "  build-depends: main:l0\n" * ring)


def imports(more):
    """Stanzas that each import the one before."""
    text = filled(f"{HEAD}common s0\n  build-depends: a\n", lambda it: f"common s{it + 1}\n  import: s{it}\n{more}", most=MOST - 100)
    return package(f"{text}library\n  import: s{text.count('common') - 1}\n")


def names_of_directory(pattern):
    """A thousand names of the greatest length, and a pattern of a project."""
    return {"cabal.project": f"packages: .\noptional-packages: {pattern}\n", **LOCAL, **{f"{'a' * 240}{it:04}": "" for it in range(1_000)}}


UNREAD = "  x:\n" * 200_000

FILES = {
    # The layout of a file.
    "braces beside each other": lambda: package(filled(HEAD + "library\n", lambda it: f"flag f{it} {{\n}}\n")),
    "braces in each other": lambda: package(HEAD + nested("flag f {\n", "}\n", "")),
    "braces that close nothing": lambda: package(filled(HEAD, "}\n")),
    "sections in each other": deep_sections,
    "sections beside each other": lambda: package(filled(HEAD, lambda it: f"executable e{it}\n")),
    "unread sections beside each other": lambda: package(filled(HEAD + "library\n", "x\n")),
    "blank lines": lambda: package(filled(HEAD + "library\n", "\n")),
    "comments": lambda: package(filled(HEAD + "library\n", " --\n")),
    "one field of many lines": lambda: package(filled(HEAD + "library\n  build-depends:\n", "   a,\n", "   a\n")),
    "unread fields": lambda: package(filled(HEAD + "library\n", "  x:\n")),
    "a line of one word": lambda: package(filled(HEAD + "library\n  x", "x")),
    # Conditions.
    "`!` in each other": lambda: condition("!" * 1_000_000 + "true"),
    "parentheses of a condition": lambda: condition(nested("(", ")", "true")),
    "closed parentheses of a condition": lambda: condition(chained("", "(true)", "&&")),
    "`&&` of a condition": lambda: condition(chained("", "true", "&&")),
    "`||` of a condition": lambda: condition(chained("", "true", "||")),
    "`&&` of a flag": lambda: condition(chained("", "flag(f)", "&&")),
    "`||` of a flag": lambda: condition(chained("", "flag(f)", "||")),
    "`!` and `||` of a flag": lambda: condition(chained("", "!flag(f)", "||")),
    "`if` of a flag beside each other": lambda: library(filled("", "  if flag(f)\n    x: y\n", most=MOST - 200)),
    "`if` with a dependency each": lambda: library(filled("", "  if flag(f)\n    build-depends: a\n", most=MOST - 200)),
    "`elif` in a chain": lambda: library(filled("  if flag(f)\n    x: y\n", "  elif flag(f)\n    x: y\n", most=MOST - 200)),
    "`elif` in a chain with a dependency each": lambda: library(
        filled("  if flag(f)\n    build-depends: a\n", "  elif flag(f)\n    build-depends: a\n", most=MOST - 200)
    ),
    "`elif` of systems with a dependency each": lambda: library(
        filled("  if os(x)\n    build-depends: a\n", "  elif os(x)\n    build-depends: a\n", most=MOST - 200)
    ),
    "`elif` of two tests with a dependency each": lambda: library(
        filled("  if flag(f) && os(linux)\n    build-depends: a\n", "  elif flag(f) && os(linux)\n    build-depends: a\n", most=MOST - 200)
    ),
    "`elif` of one flag or another with a dependency each": lambda: library(
        filled("  if flag(f) || flag(g)\n    build-depends: a\n", "  elif flag(f) || flag(g)\n    build-depends: a\n", most=MOST - 200),
        flags="flag f\nflag g\n",
    ),
    "`elif` of twenty flags in turn with a dependency each": lambda: in_turn(20),
    "`elif` of two thousand flags in turn with a dependency each": lambda: in_turn(2_000),
    "`elif` of flags that differ, behind two that no flags pass": lambda: library(
        f"  if flag(f)\n    build-depends: a\n  elif !flag(f)\n    build-depends: a\n{differing('  ')}", flags=FLAG + declared(19_000)
    ),
    "`elif` of flags that differ, inside a branch of the first test": lambda: library(
        f"  if flag(f)\n   if flag(f0)\n    if flag(f)\n      build-depends: a\n{differing('    ', 17_000)}", flags=FLAG + declared(17_000)
    ),
    "`elif` in a chain inside a branch, with a dependency each": lambda: library(
        filled("  if flag(g)\n    if flag(f)\n      build-depends: a\n", "    elif flag(f)\n      build-depends: a\n", most=MOST - 200),
        flags="flag f\nflag g\n",
    ),
    "`elif` with `buildable: False` in each branch": lambda: library(
        filled("  if flag(f)\n    buildable: False\n", "  elif flag(f)\n    buildable: False\n", most=MOST - 200) + "  build-depends: a\n"
    ),
    "`elif` of flags that differ with a dependency each": lambda: library(
        f"  if flag(f0)\n    build-depends: a\n{differing('  ')}", flags=declared(19_000)
    ),
    "`if` of many tests over many dependencies": lambda: library(
        chained("  if ", "flag(f)", "&&")[: MOST // 2].rsplit("&&", 1)[0] + "\n" + "    build-depends: a\n" * 24_000
    ),
    "`buildable: False` under conditions": lambda: library(filled("  build-depends: a\n", "  if flag(f)\n    buildable: False\n", most=MOST - 200)),
    # Ranges and dependencies.
    "parentheses of a range": lambda: depends(nested("(", ")", ">=1")),
    "closed parentheses of a range": lambda: depends(chained("", "(>=1)", "&&")),
    "`&&` of a range": lambda: depends(chained("", ">=1", "&&")),
    "`||` of a range": lambda: depends(chained("", ">=1", "||")),
    "`||` of ranges that differ": lambda: depends(chained("", lambda it: f"=={it * 7919 % 1_000_003}", "||")),
    "`&&` of ranges that differ": lambda: depends(chained("", lambda it: f"<{it * 7919 % 1_000_003 + 2}", "&&")),
    "`&&` and `||` in turn": lambda: depends(chained("", lambda it: f">={it}&&<{it + 1}", "||")),
    "versions in a set": lambda: depends(chained("=={", "1", ",") + "}"),
    "versions in a set that differ": lambda: depends(chained("=={", lambda it: str(it * 7919 % 1_000_003), ",") + "}"),
    "versions in a set of `^>=`": lambda: depends(chained("^>={", lambda it: f"{it}.1", ",") + "}"),
    "numbers of a version": lambda: depends(chained(">=", "1", ".")),
    "digits of a version": lambda: depends(">=" + "1" * 1_000_000),
    "commas": lambda: library(filled("  build-depends: a", ",", most=MOST - 200) + "\n"),
    "dependencies on one package": lambda: library(chained("  build-depends: ", "a", ",") + "\n"),
    "dependencies on packages that differ": lambda: library(chained("  build-depends: ", lambda it: f"a{it}", ",") + "\n"),
    "dependencies on packages of long names": lambda: library(chained("  build-depends: ", lambda it: f"{it}{'x' * 1_000}", ",") + "\n"),
    "a dependency on a package of a long name": lambda: library("  build-depends: a" + "b" * 1_000_000 + "\n"),
    "libraries in braces": lambda: library(chained("  build-depends: a:{", "a", ",") + "}\n"),
    "libraries in braces that differ": lambda: library(chained("  build-depends: a:{", lambda it: f"l{it}", ",") + "}\n"),
    "tools": lambda: library(chained("  build-tool-depends: ", "a:e", ",") + "\n"),
    "tools of packages that differ": lambda: library(chained("  build-tool-depends: ", lambda it: f"t{it}:e", ",") + "\n"),
    "needs of a setup script": lambda: package(chained(f"{HEAD}build-type: Custom\ncustom-setup\n  setup-depends: ", "a", ",") + "\n"),
    # Declarations of a package.
    "flags": lambda: package(filled(HEAD + "library\n", lambda it: f"flag f{it}\n")),
    "flags that each stand in a condition": lambda: package(
        filled(HEAD, lambda it: f"flag f{it}\nlibrary l{it}\n  if flag(f{it})\n    build-depends: a\n")
    ),
    "flags of one name": lambda: package(filled(HEAD + "library\n", FLAG)),
    "imports in a chain": lambda: imports(""),
    "imports in a chain with a dependency each": lambda: imports("  build-depends: a\n"),
    "a stanza that many import": lambda: package(filled(f"{HEAD}common s\n  build-depends: a\n", lambda it: f"executable e{it}\n  import: s\n")),
    "a stanza that is imported many times": lambda: package(
        chained(f"{HEAD}common s\n  build-depends: a\nlibrary\n  import: ", "s", ",") + "\n"
    ),
    "a large stanza that many import": lambda: package(
        chained(f"{HEAD}common s\n  build-depends: ", "a", ",")[: MOST // 2].rstrip(",")
        + "\n"
        + "".join(f"executable e{it}\n  import: s\n" for it in range(16_000))
    ),
    "a stanza of branches that many import": lambda: package(
        f"{HEAD}{FLAG}common s\n" + "  if flag(f)\n    build-depends: a\n" * 300 + filled("", lambda it: f"executable e{it}\n  import: s\n", most=MOST - 20_000)
    ),
    "stanzas that multiply": lambda: package(
        f"{HEAD}common s0\n  build-depends: a\n" + "".join(f"common s{it + 1}\n  import: s{it},s{it}\n" for it in range(60)) + "library\n  import: s60\n"
    ),
    "components that need one package": lambda: package(filled(HEAD, lambda it: f"executable e{it}\n  build-depends: a\n")),
    "test suites": lambda: package(filled(HEAD, lambda it: f"test-suite t{it}\n  build-depends: a\n")),
    "libraries in a chain": lambda: internal(False),
    "libraries in a ring": lambda: internal(True),
    # Project files.
    "entries of one name": lambda: project(chained("optional-packages: ", "x", " ") + "\n"),
    "entries that differ": lambda: project(chained("optional-packages: ", lambda it: f"x{it}", " ") + "\n"),
    "entries that lead down": lambda: project(chained("optional-packages: ", "x", "/") + "\n"),
    "an entry of stars": lambda: names_of_directory(chained("", "*", "")[:-100]),
    "an entry of stars and letters": lambda: names_of_directory(chained("", "*a", "")[:-100]),
    "an entry of letters": lambda: names_of_directory(chained("*", "a", "")[:-100]),
    "entries of a star": lambda: names_of_directory(chained("", lambda it: f"*{it}", " ")[:-100]),
    "entries of two stars": lambda: names_of_directory(chained("", lambda it: f"*{it}*", " ")[:-100]),
    "entries of a star each in a directory": lambda: project(
        chained("optional-packages: ", lambda it: f"d{it % 100}/*{it}", " ") + "\n", {**LOCAL, **{f"d{it}/{at}/x": "" for it in range(100) for at in range(10)}}
    ),
    "stars that lead down": lambda: project(chained("optional-packages: ", "*", "/") + "\n"),
    "constraints on one package": lambda: project(chained("constraints: ", "a >0", ",") + "\n"),
    "constraints on packages that differ": lambda: project(chained("constraints: ", lambda it: f"a{it} >0", ",") + "\n"),
    "constraints of every scope": lambda: project(chained("constraints: ", lambda it: f"{('any.', 'setup.', f'b{it}:setup.')[it % 3]}a >0", ",") + "\n"),
    "flags in a constraint": lambda: project(chained("constraints: a ", lambda it: f"+f{it}", " ") + "\n"),
    "preferences": lambda: project(chained("preferences: ", "a >0", ",") + "\n"),
    "preferences of ranges that differ": lambda: project(chained("preferences: ", lambda it: f"a >{it}", ",") + "\n"),
    "extra packages": lambda: project(chained("extra-packages: ", "a", ",") + "\n"),
    "extra packages that differ": lambda: project(chained("extra-packages: ", lambda it: f"a{it}", ",") + "\n"),
    "relaxed bounds": lambda: project(chained("allow-newer: ", "a", ",") + "\n"),
    "relaxed bounds that differ": lambda: project(chained("allow-newer: ", lambda it: f"b{it}:a", ",") + "\n"),
    "`package` sections": lambda: project(filled("", lambda it: f"package a{it}\n  flags: +f\n", most=MOST - 200)),
    "`package` sections of one package": lambda: project(filled("", "package a\n  flags: +f\n", most=MOST - 200)),
    "branches of a project": lambda: project(filled("", "if os(linux)\n  constraints: a >0\n", most=MOST - 200)),
    "`elif` of a project": lambda: project(filled("if os(x)\n  tests: True\n", "elif os(x)\n  tests: True\n", most=MOST - 200)),
    "warnings of a project": lambda: project(filled("", "index-state: x\n", most=MOST - 200)),
    # Records and the index.
    "records in a ring": lambda: units(RECORDS, lambda it: f"u{(it + 1) % RECORDS}-1"),
    "records in a chain that ends nowhere": lambda: units(RECORDS, lambda it: f"u{it + 1}-1"),
    "records of which each needs all": lambda: units(1_000, lambda it: " ".join(f"u{at}-1" for at in range(1_000) if at > it)),
    "records in a ring of which each needs all": lambda: units(1_000, lambda it: " ".join(f"u{at}-1" for at in range(1_000) if at != it)),
    "a record of many needs": lambda: {
        "main.cabal": plain("main", 1, ["u0"]),
        "installed/u0.conf": record("u0", chained("", "u1-1", " ")),
        "installed/u1.conf": record("u1", ""),
    },
    "a record of many needs without a record": lambda: {
        "main.cabal": plain("main", 1, ["u0"]),
        "installed/u0.conf": record("u0", chained("", lambda it: f"v{it}-1", " ")),
    },
    "units of one package": lambda: {
        "main.cabal": plain("main", 1, ["u"]),
        **{f"installed/u{it}.conf": f"name: u\nversion: {it}\nid: u-{it}\ndepends: gone\n" for it in range(RECORDS)},
        "installed/v.conf": "name: u\nversion: 0\nid: v\n",
    },
    "versions of one package": lambda: {
        "main.cabal": plain("main", 1, ["a >0"]),
        **{f"index/a/{it}/a.cabal": plain("a", it, ["gone"] if it > 1 else []) for it in range(RECORDS)},
    },
    "packages in a chain": lambda: {
        "main.cabal": plain("main", 1, ["a0"]),
        **{f"index/a{it}/1/a{it}.cabal": plain(f"a{it}", 1, [f"a{it + 1}"] if it + 1 < RECORDS else []) for it in range(RECORDS)},
    },
    "packages in a ring": lambda: {
        "main.cabal": plain("main", 1, ["a0"]),
        **{f"index/a{it}/1/a{it}.cabal": plain(f"a{it}", 1, [f"a{(it + 1) % RECORDS}"]) for it in range(RECORDS)},
    },
    "files of the index with a fault": lambda: {
        "main.cabal": plain("main", 1, ["a"]),
        **{f"index/a/{it}/a.cabal": plain("a", it) + "}\n" for it in range(RECORDS - 1)},
        "index/a/99999/a.cabal": plain("a", 99999),
    },
    "files of the index of 1 MiB": lambda: {
        "main.cabal": plain("main", 1, ["a"]),
        **{f"index/a/{it}/a.cabal": f"{plain('a', it)}{UNREAD}" for it in range(250)},
    },
}


def run(program, names):
    others, rows = Others(), []
    for name in names or FILES:
        files = FILES[name]()
        with room() as work:
            lay_out(work, files)
            ended = program.timed(work, ["plan"])
        first = ended.out[:60].decode("utf-8", "replace").split("\n")[0] or ended.err.decode().strip()
        last = ended.out.decode("utf-8", "replace").rstrip("\n").rsplit("\n", 1)[-1] if ended.out[:7] != b"refused" else ""
        if ended.status not in (0, 1, 2, 3, 6, None):
            others.add(f"{name}: status {ended.status}, {ended.err[:200]!r}")
        total = sum(len(it) for it in files.values())
        much = " **" if ended.seconds > SECONDS or ended.megabytes > MEGABYTES else ""
        status, told = ("stopped", f"after {PATIENCE} s") if ended.status is None else (ended.status, f"`{first}`")
        rows.append((name, f"{total:,}", status, told, last, f"{ended.seconds:.2f}", f"{ended.megabytes:.0f}{much}"))
        print(*rows[-1], sep=" | ", file=sys.stderr, flush=True)
    table(("File", "Bytes", "Status", "Answer", "Counts", "Seconds", "Megabytes"), rows)
    return others.count
