"""The rules in `docs/OLDER.md`. Each block shows an older file, the changes behind `=>`, and the new file; or behind `=>` the
refusal. That must be what a case of `crates/case_runs/data/older` prints."""

from tool.cases import cases

SUBJECT, MARK = "older", "=> "


def told(path, output):
    """Returns what a block shows of a frame: the line behind the older file, and those of the new file."""
    lines = output.decode("utf-8", "replace").split("\n")
    if lines[0].startswith(f"refused {path}:"):
        line, cause = lines[0].removeprefix(f"refused {path}:").split(" ", 1)
        return [f"{MARK}refused at line {line} {cause}"]
    changes = [it.removeprefix("change ") for it in lines[1:] if it.startswith("change ")]
    return [MARK + ", ".join(changes), *lines[2 + len(changes) : -2]]


def shown():
    """Returns the blocks that a document may show, as tuples of lines: of each case of one file."""
    found = set()
    for case in cases(SUBJECT):
        files = [(path, content) for path, content in case.files.items() if path.endswith(".cabal")]
        if len(files) == 1 and len(case.runs) == 1:
            ((path, content),) = files
            found.add((*content.decode("utf-8", "replace").split("\n")[:-1], *told(path, case.runs[0].output)))
    return found


def checks(read):
    """Yields the faults of each block with an older file."""
    blocks = [(page, at, lines) for page in read for at, lines in page.blocks if any(it.startswith(MARK) for it in lines)]
    known = shown() if blocks else set()
    for page, at, lines in blocks:
        yield [] if tuple(lines) in known else [page.fails(at, f"no case of {SUBJECT} has this older file with this answer")]
