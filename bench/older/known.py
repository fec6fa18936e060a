"""The forms of files in which Cabal reads another thing, by the table in `docs/OLDER.md`. Out: their names."""

from tool.documents.pages import Page, cells

PAGE, HEAD = "docs/OLDER.md", "Forms"


def forms():
    """Returns the forms that stand in the first column of the table."""
    found, is_in = set(), False
    for line in Page(PAGE).prose:
        row = cells(line)
        is_in = row[0] == HEAD if row and not is_in else is_in and line.startswith("|")
        if row and is_in:
            found.update(it.strip() for it in row[0].split(","))
    return found - {HEAD}


__all__ = ["forms"]
