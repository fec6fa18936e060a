"""What has changed since an earlier run.

Input: the record of a cell, and its earlier one or none. Output: `new`, `broken`, `mended`, `other versions`, or none."""

NEW, BROKEN, MENDED, OTHER = KINDS = ("new", "broken", "mended", "other versions")
PLAN = "plan"


def choices(record):
    """Returns the choices of a plan."""
    return sorted(it for it in record["output"].split("\n") if it.startswith("choose "))


def change(record, earlier):
    """Returns the kind of a change."""
    if earlier is None:
        return NEW
    was, now = earlier["verdict"] == PLAN, record["verdict"] == PLAN
    if was != now:
        return MENDED if now else BROKEN
    return OTHER if now and choices(record) != choices(earlier) else None


def lines(record, earlier):
    """Yields the choices that an earlier plan had, and those of the present one."""
    old, new = set(choices(earlier)), set(choices(record))
    yield from (f"- {it}" for it in sorted(old - new))
    yield from (f"+ {it}" for it in sorted(new - old))
