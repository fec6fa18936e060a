"""The HTML of the pages. The script draws the table and the cells; without it a page says so."""

from html import escape

from tool.set.page_data import file_name, text_of

TITLE = "Plans of a package set"
POLICY = "default-src 'none'; script-src 'nonce-{0}'; style-src 'nonce-{0}'; base-uri 'none'; form-action 'none'"
PAGE = """<!doctype html>
<html lang="en">
<head>
<meta charset="utf-8">
<meta http-equiv="Content-Security-Policy" content="{policy}">
<meta name="viewport" content="width=device-width, initial-scale=1">
<meta name="color-scheme" content="light dark">
<title>{title}</title>
<link rel="stylesheet" nonce="{nonce}" href="{top}page.css">
<script nonce="{nonce}" src="{top}page.js"></script>
<script nonce="{nonce}" src="{data}" defer></script>
</head>
<body data-top="{top}" data-package="{package}">
<a class="skip" href="#table" id="skip">Skip to the table</a>
<header class="still">
<div>{way}<h1>{title}</h1><p id="summary"></p></div>
<button type="button" id="theme">Theme: system</button>
</header>
<main>
<form id="filters" class="still" role="search">
<label class="grow">Search <kbd>/</kbd><input type="search" id="search" autocomplete="off" spellcheck="false" placeholder="{hint}"></label>
<label>Compiler<select id="compiler"><option value="">all</option></select></label>
<label>Setting<select id="setting"><option value="">all</option></select></label>
<label>Order<select id="order"><option value="worst">broken first</option><option value="name">by name</option></select></label>
<div id="kinds" role="group" aria-label="Show only rows with"></div>
</form>
<p id="found" class="still" role="status"></p>
<table id="table" role="grid" aria-describedby="found">
<caption>Rows are packages, columns compilers and settings. Arrow keys move, Enter opens a cell.</caption>
<thead></thead>
<tbody></tbody>
</table>
<p class="still"><button type="button" id="more" hidden>Show more rows</button></p>
<section id="reasons" class="still" hidden></section>
<noscript><p>This page needs JavaScript, which draws the table.</p></noscript>
</main>
<dialog id="cell" aria-labelledby="cell-title"></dialog>
</body>
</html>
"""


def page(nonce, **of):
    """Returns a page with these parts."""
    parts = {key: it if key == "way" else escape(it) for key, it in of.items()}
    return PAGE.format(policy=escape(POLICY.format(nonce)), nonce=nonce, **parts)


def index(nonce):
    """Returns the page with the table of all cells."""
    return page(nonce, title=TITLE, top="", data="table.js", package="", way="", hint="package or version")


def package(name, nonce):
    """Returns the page of a package."""
    way = f'<p class="way"><a href="../index.html">{TITLE}</a></p>'
    file = file_name(name)
    return page(nonce, title=text_of(name), top="../", data=f"../data/{file}.js", package=file, way=way, hint="version")
