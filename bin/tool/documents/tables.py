"""The tables of the documents: they must list what the sources have."""

import os
import re
import subprocess

from tool.documents.names import CRATES, defined
from tool.documents.pages import TOP, Failure, cells, names
from tool.program import table

# Names of std, and words of the language.
PLAIN = {"Eq", "From", "Hash", "Ord", "clause", "for", "impl", "law"}


def told_by_calls(*words):
    """Returns whether `bin/calls` finds a clause for each call and answer, and the lines that it prints."""
    ran = subprocess.run([f"{TOP}/bin/calls", *words], stdin=subprocess.DEVNULL, stdout=subprocess.PIPE, text=True, check=False)
    return ran.returncode == 0, ran.stdout.split("\n")[:-1]


def calls(page):
    """Returns the places where the tables of public calls and of other exports aren't what `bin/calls` prints."""
    are_whole, lines = told_by_calls()
    end = lines.index("")
    wrong = [] if are_whole else [page.fails(1, "a call, or an answer of one, has no clause: bin/calls ends with 1")]
    return wrong + of_table(page, lines[:end]) + of_table(page, lines[end + 1 :])


def of_table(page, wanted):
    """Returns the place where the table with this first line isn't as wanted."""
    if wanted[0] not in page.prose:
        return [page.fails(1, f"it has no table {wanted[0]}")]
    at = page.prose.index(wanted[0])
    end = page.prose.index("", at)
    is_same = page.prose[at:end] == wanted
    first = next((n for n, (one, other) in enumerate(zip(page.prose[at:end], wanted)) if one != other), min(end - at, len(wanted)))
    return [] if is_same else [page.fails(at + first + 1, "here the table isn't what bin/calls prints: bin/calls --write puts it there")]


def laws(page):
    """Returns the public laws that no row on their crate names."""
    rows = {}
    for number, crate, row in contract_rows(page):
        rows.setdefault(crate, set()).update(it for name in names(row[2]) for it in re.findall(r"\w+", name))
    told = [line.split(" ") for line in told_by_calls("--laws")[1]]
    return [page.fails(1, f"no row on {crate} names its law {law}") for crate, law in told if law not in rows.get(crate, ())]


def contract_rows(page):
    """Yields each row on a contract: its line, its crate and its cells. Without a crate it continues the row above."""
    crate = None
    for number, line in enumerate(page.prose, 1):
        row = cells(line)
        if len(row) == 3 and row[2] != "Contract":
            crate = (names(row[0]) or [crate])[0]
            yield number, crate, row


def contracts(page):
    """Yields for each row on a contract the names that its crate and the row's other crates don't have."""
    used = table()
    for number, crate, row in contract_rows(page):
        yield [page.fails(number, f"{crate} defines no {it}") for it in lacking(crate, used, row)] if crate in CRATES else [
            page.fails(number, f"there is no crate {crate}")
        ]


def lacking(crate, used, row):
    near = {crate} | {it for cell in row for it in names(cell) if it in CRATES}
    there = PLAIN.union(*(defined(f"crates/{it}/{part}") for it in near for part in ("src", "specs", "proofs")), *(used.get(it, ()) for it in near))
    words = [it for name in names(row[2]) for it in re.findall(r"[\w-]+", name)]
    return [it for it in words if it not in there and it not in CRATES and len(it) > 1]


def definition_rows(page):
    """Yields each row on definitions: its line, their files and their names. Without a file or crate it continues the
    row above."""
    crate, files = None, []
    for number, line in enumerate(page.prose, 1):
        row = cells(line)
        if len(row) == 3 and row[0] != "File":
            of, told = [it for it in names(row[0]) if it in CRATES], [it for it in names(row[0]) if it not in CRATES]
            crate = of[0] if of else crate
            files = [f"crates/{crate}/{it if '/' in it else f'specs/{it}.antt'}" for it in told] or files
            yield number, files, [it for name in names(row[1]) for it in re.findall(r"[\w-]+", name)]


def definitions(page):
    """Yields for each row on definitions the missing files, and the names that its files don't define."""
    for number, files, told in definition_rows(page):
        there = {name for it in files for name in defined(it)}
        wrong = [page.fails(number, f"there is no {it}") for it in files if not os.path.isfile(f"{TOP}/{it}")]
        yield wrong + [page.fails(number, f"{' and '.join(files)} defines no {it}") for it in told if it not in there]


def first_of(row):
    """Returns the names of a row: those in its first cell, or else in the second one before a colon."""
    return names(row[0]) or names(row[1].split(":")[0]) if row else []


def crates(page, title):
    """Returns the crates that the tables of a section lack, and those listed there that don't exist."""
    found = {}
    for _, head, lines in page.sections():
        if head == title:
            found.update({it: number for number, line in lines for it in first_of(cells(line)) if re.fullmatch(r"\w+", it)})
            where = lines[0][0]
    return [page.fails(where, f"no table below has {it}") for it in table() if it not in found] + [
        page.fails(number, f"there is no crate {it}") for it, number in found.items() if it not in CRATES and not re.fullmatch(r"[A-Z]\w*", it)
    ]


def edits_in(folder):
    return {f"{crate}/{name[: -len('.edit')]}" for crate in CRATES for name in listed(f"{TOP}/crates/{crate}/{folder}") if name.endswith(".edit")}


def listed(folder):
    return os.listdir(folder) if os.path.isdir(folder) else []


def edits(page):
    """Yields for each row of the table of wrong bodies its misplaced edits; last, the gate's edits without a row."""
    where, told, last = {it: edits_in(it) for it in ("must-fail", "mistakes")}, set(), 0
    for number, line in rows_below(page, "| Crate | `must-fail` | `mistakes` |"):
        crate, *columns = cells(line)
        wrong, last = [], number
        for folder, cell in zip(where, columns):
            here = {f"{crate.strip('`')}/{it}" for it in names(cell)}
            told |= here
            wrong += [page.fails(number, f"{it} {place(it, where)}, not in {folder}") for it in sorted(here - where[folder])]
        yield wrong
    yield [page.fails(last, f"no row above has {it}, which the gate tries") for it in sorted(where["must-fail"] - told)]


def rows_below(page, head):
    """Returns the rows of the table with this head, each with the number of its line."""
    first = page.prose.index(head) + 2 if head in page.prose else len(page.prose)
    end = page.prose.index("", first) if "" in page.prose[first:] else len(page.prose)
    return list(enumerate(page.prose[first:end], first + 1))


def place(edit, where):
    return next((f"stands in {folder}" for folder, there in where.items() if edit in there), "is no edit")


def checks(pages):
    """Yields the faults of each check."""
    by_name = {os.path.basename(it.path): it for it in pages}
    for name in ("README.md", "ARCHITECTURE.md", "DEFINITIONS.md", "PROVED.md"):
        if name not in by_name:
            yield [Failure(name, 1, "there is no such document")]
            return
    yield calls(by_name["PROVED.md"])
    yield laws(by_name["PROVED.md"])
    yield from contracts(by_name["PROVED.md"])
    yield from definitions(by_name["DEFINITIONS.md"])
    yield crates(by_name["ARCHITECTURE.md"], "## The crates")
    yield from edits(by_name["ARCHITECTURE.md"])
