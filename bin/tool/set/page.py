"""Writes the results of a set as static pages, which open without a server and ask nothing of the network.

Input: records of cells, and a folder. Output: in the folder a table of all cells, a page for each package, and data that
the pages load. A name or text from outside is escaped, and never runs: a page's scripts are only those of this tool."""

import hashlib
import json
import os

from tool import files
from tool.set import page_html
from tool.set.page_data import CHANGES, KINDS, VERDICTS, Cells, Table, file_name, package_data, script
from tool.set.page_folder import DATA, PACKAGES, place_of, replaced
from tool.set.page_plan import PLAN
from tool.set.page_script import SCRIPT
from tool.set.page_style import STYLE


def gathered(records, place):
    """Returns the cells of all records, which wait in a file without a name on the disk of the page."""
    cells = Cells(files.scratch(place.above))
    for it in records:
        cells.add(it)
    return cells


def put_data(folder, cells):
    """Writes the data of all pages, and returns the packages that have one, and a digest of all that was written."""
    table, digest, names = Table(), hashlib.sha256(), sorted(cells.packages)
    for name in names:
        found = cells.of(name)
        table.add(name, found)
        data = script("cells", file_name(name), package_data(name, found))
        digest.update(data)
        folder.put(f"{DATA}/{file_name(name)}.js", data)
    data = script("table", table.data())
    digest.update(data)
    folder.put("table.js", data)
    return names, digest.hexdigest()


def words_of_cells():
    """Returns the lists of words by whose places a cell's number is read."""
    lists = {"VERDICTS": VERDICTS, "CHANGES": CHANGES, "KINDS": KINDS}
    told = ", ".join(f"{name} = {json.dumps(it)}" for name, it in lists.items())
    return f'"use strict";\nconst {told};\n'.encode()


def put_pages(folder, names, nonce):
    """Writes the pages. A page runs and styles only what has the nonce: no text can hold it, as it depends on all texts."""
    folder.put("page.css", STYLE.encode())
    folder.put("page.js", words_of_cells() + PLAN.encode() + SCRIPT.encode())
    folder.put("index.html", page_html.index(nonce).encode())
    for name in names:
        folder.put(f"{PACKAGES}/{file_name(name)}.html", page_html.package(name, nonce).encode())


def write(records, directory):
    """Writes the page of these cells into a folder, in place of the page that is there."""
    with place_of(os.fspath(directory)) as place:
        place.check()
        cells = gathered(records, place)
        with cells.file, replaced(place) as folder:
            names, nonce = put_data(folder, cells)
            put_pages(folder, names, nonce[:32])
