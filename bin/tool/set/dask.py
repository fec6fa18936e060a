"""The engine on a cluster: batches of cells as tasks of dask.

Input: cells as objects, a room, and the address of a scheduler. Output: the lines of their records, as they come. Debian's
Python runs the client, since its packages have dask. Which worker runs what, and what becomes of the cells of one that
dies, is for dask to say."""

import io
import json
import os
import subprocess
import tarfile

from tool.children import child
from tool.ends import status_of_program
from tool.files import scratch
from tool.refusal import Refusal, shown
from tool.set.run import FAULT, WORK

PYTHON = "/usr/bin/python3"
HERE = os.path.dirname(os.path.abspath(__file__))
CLIENT, TOOL = f"{HERE}/client.py", os.path.dirname(HERE)
ROOM, SENT = "room", "sent"
# What of the room a worker doesn't need.
UNSENT = {f"{ROOM}/{it}" for it in (WORK, SENT, "older", ".made")}


def packed(room, is_shared):
    """Returns what the workers are sent, as the bytes of a tar: the modules of this tool, and the room unless it is shared. The
    same files give the same bytes."""
    out = io.BytesIO()
    with tarfile.open(fileobj=out, mode="w") as tar:
        tar.add(TOOL, "tool", filter=plain)
        if not is_shared:
            tar.add(str(room), ROOM, filter=plain)
    return out.getvalue()


def plain(entry):
    """Returns an entry of a tar without what differs from one machine to another, or none if it isn't needed."""
    if entry.name in UNSENT or entry.name.endswith("/__pycache__"):
        return None
    entry.mtime, entry.uid, entry.gid, entry.uname, entry.gname = 0, 0, 0, "", ""
    return entry


def spooled(cells, room):
    """Returns a file with a cell a line."""
    file = scratch(str(room))
    for it in cells:
        file.write(json.dumps(it).encode() + b"\n")
    file.seek(0)
    return file


def lines(cells, room, scheduler, is_shared, say):
    """Yields the lines of the records of cells."""
    with spooled(cells, room) as file:
        size = os.fstat(file.fileno()).st_size
        if not size:
            return
        data = packed(room, is_shared)
        room.write(SENT, data)
        say(f"sends {len(data)} bytes to each worker once" + f", which reads the rest in {room}" * is_shared)
        words = [PYTHON, "-I", CLIENT, scheduler, f"{room}/{SENT}", str(room) if is_shared else ""]
        with child(words, stdin=file, stdout=subprocess.PIPE, stderr=subprocess.DEVNULL) as ran:
            for line in ran.stdout:
                if line.startswith(FAULT):
                    raise Refusal(shown(line[len(FAULT) :].decode("utf-8", "replace").strip()) + "; what was made before stays")
                yield line
            status = ran.wait()
        if status:
            raise Refusal(f"the client of dask ended with status {status_of_program(status)}; what was made before stays")
