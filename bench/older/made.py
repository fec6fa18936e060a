"""Small `.cabal` files by rule. Out: the path and the bytes of each form of `made_rules.py` and `made_layouts.py` under each
header, and of the files of `made_headers.py`, which have their own; or of random layouts and packages."""

import re

from older.drawn import drawn
from older.drawn_packages import drawn_package
from older.made_headers import PLACED, PLACES_FOR, PLAIN, SAID
from older.made_layouts import BYTES, LAYOUTS
from older.made_parts import LIBRARY
from older.made_rules import RULES

# The headers that each form gets: none, a least version, and a version alone.
LEAST = ("1.0", "1.2", "1.4", "1.6", "1.8", "1.10", "1.12", "1.18", "1.20", "1.22", "1.24", "2.0")
ALONE = ("1.2", "1.10", "1.24", "2.0", "2.2", "2.4", "3.0", "3.4")
HEADERS = {
    "none": "",
    **{f"from-{it}": f"cabal-version: >={it}\n" for it in LEAST},
    **{f"is-{it}": f"cabal-version: {it}\n" for it in ALONE},
}
ESCAPE = re.compile(r"[^A-Za-z0-9.-]")


def plain(text):
    """Returns a name of a file for a text."""
    return ESCAPE.sub(lambda found: f"_{ord(found[0]):02x}", text)


def heads():
    """Yields the files whose header is the matter."""
    for said in SAID:
        yield f"header-said/{plain(said)}", f"cabal-version: {said}\n" + PLAIN
        yield f"header-said-second/{plain(said)}", f"name: p\ncabal-version: {said}\nversion: 1\nbuild-type: Simple\n" + LIBRARY
    for place, text in PLACED.items():
        yield from ((f"header-{place}/{plain(said)}", text.replace("{0}", said)) for said in PLACES_FOR)


def files():
    """Yields the path of each file and its bytes."""
    forms = {**{f"rule-{form}": text for form, text in RULES.items()}, **{f"layout-{form}": text for form, text in {**LAYOUTS, **BYTES}.items()}}
    for form, text in forms.items():
        for label, header in HEADERS.items():
            ends = "\r" if form == "layout-lines-cr" else "\r\n" if form in ("layout-lines-crlf", "layout-lines-crlf-braces") else "\n"
            yield f"{form}/{label}.cabal", header.replace("\n", ends).encode() + (text if isinstance(text, bytes) else text.encode())
    yield from ((f"{path}.cabal", text.encode()) for path, text in heads())


def random_files(count):
    """Yields so many random files of each kind: layouts and packages."""
    for number in range(count):
        yield f"layout-{number // 100:04}/{number:06}.cabal", drawn(number)
        yield f"package-{number // 100:04}/{number:06}.cabal", drawn_package(number)
