"""Refuses each request for memory in turn, alone and with all later ones. The answer must be out of memory with nothing
written, or the same as without a refused request."""

import errno
import time

from torture.folders import ROWS
from torture.running import MEMORY, Others, is_failure, lay_out, room, shown, side_by_side, table

OUT_OF_MEMORY = 6
ALL = 2**62


def tried(program, folder, words, others, name):
    whole = program.run(folder, words)
    asked = [(number, last) for number in range(1, whole.counts.memory + 1) for last in (number, ALL)]
    out_of_memory = same = 0
    begun = time.monotonic()
    ends = side_by_side(lambda it: program.run(folder, words, (MEMORY, *it, errno.ENOMEM)), asked)
    for (number, last), ended in zip(asked, ends):
        if not ended.counts.refused:
            others.add(f"{name}, request {number}: nothing was refused")
        elif is_failure(ended, OUT_OF_MEMORY) and not ended.out:
            out_of_memory += 1
        elif (ended.status, ended.out, ended.err) == (whole.status, whole.out, whole.err):
            same += 1
        else:
            others.add(f"{name}, request {number} to {last}: {shown(ended)}")
    return whole, out_of_memory, same, time.monotonic() - begun


def run(program, _):
    others, rows = Others(), []
    for name, (files, words) in ROWS.items():
        with room() as folder:
            lay_out(folder, files())
            before = others.count
            whole, out_of_memory, same, seconds = tried(program, folder, words, others, name)
        found = others.count - before
        rows.append((name, whole.status, f"{whole.counts.memory:,}", f"{out_of_memory:,}", f"{same:,}", found, f"{seconds:.0f}"))
    table(("Run", "Status", "Requests", "Runs that end with 6 and write nothing", "As without", "Other", "Seconds"), rows)
    return others.count
