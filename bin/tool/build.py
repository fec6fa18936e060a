"""Builds the proved programs. `rt ci` proves their crates in a copy of their sources, side by side, and keeps what it has
built. A kit that keeps nothing builds each program once more, by `rt run`."""

import contextlib
import fcntl
import hashlib
import json
import os
import shutil
import subprocess
import sys
import time

from tool import children, ends, files
from tool.program import SUM, TOP
from tool.refusal import Refusal, read

PARTS = ("src", "specs", "proofs")
# What a program's own crate is run on, and must print.
RUN_ON = ("args", "stdin", "stdout", "status", "data")
# How many builds of a program are kept, for checkouts of other sources.
KEPT = 4


def say(text):
    ends.say("cabal-plan", text)


def rt():
    """Returns the path of the kit's command."""
    found = shutil.which("rt")
    if not found:
        raise Refusal("the kit's command rt isn't found, and nothing is built without it")
    return found


@contextlib.contextmanager
def alone(room):
    """Lets one caller at a time build."""
    with files.lock_file(room, "lock") as lock:
        try:
            fcntl.flock(lock, fcntl.LOCK_EX | fcntl.LOCK_NB)
        except BlockingIOError:
            say("waiting for another call, which builds the program")
            fcntl.flock(lock, fcntl.LOCK_EX)
        yield


def copy(room, programs):
    """Copies the sources of programs, with a table of their crates, and what each program is run on. Input: their sources."""
    for path in sorted({path for it in programs for path in it.paths}):
        room.copy(f"{TOP}/{path}", path)
    crates = {crate: used for it in programs for crate, used in it.crates.items()}
    room.write("crates.txt", "".join(f"{crate}: {' '.join(used)}\n" for crate, used in crates.items()))
    for path in (f"crates/{it.crate}/{name}" for it in programs for name in RUN_ON):
        if os.path.exists(f"{TOP}/{path}"):
            room.copy(f"{TOP}/{path}", path)


def kept():
    """Returns the folder where this kit keeps what it has proved, or none."""
    store = os.path.join(os.path.dirname(os.path.dirname(os.path.dirname(os.path.realpath(rt())))), "rattle-kept")
    return store if os.path.isdir(store) else None


def kept_program(store, crate, since):
    """Returns the program of a crate that a proof begun at this time built or reused. The kit keeps it with its sum."""
    used = [f"{store}/{it}" for it in os.listdir(store) if it.startswith(f"proof-{crate}-") and os.path.getmtime(f"{store}/{it}") >= since]
    if len(used) != 1:
        raise Refusal(f"{store} has {len(used)} programs {crate} of this proof: one is wanted. Did another proof run beside it?")
    made = json.loads(read(f"{used[0]}/made.json"))["files"]
    number, total = next((at, total) for at, (name, total) in enumerate(made) if name == crate)
    program = read(f"{used[0]}/{number}")
    if hashlib.sha256(program).hexdigest() != total:
        raise Refusal(f"{used[0]}/{number} isn't what was proved")
    return program


def proved(top, programs, *words):
    """Proves the crates of programs in this folder by one call, and returns the programs by name, or none if this kit keeps
    none. Input: their sources."""
    since = time.time()
    ran = children.run([rt(), "ci", *words, *(it.crate for it in programs)], cwd=top, stdin=subprocess.DEVNULL, stdout=sys.stderr)
    if ran.returncode:
        raise Refusal("the proof failed, and no program was built")
    store = kept()
    return {it.name: kept_program(store, it.crate, since) for it in programs} if store else None


def run_program(room, crate):
    """Returns the program of a crate that `rt run` builds in a room."""
    children.run([rt(), "run"], cwd=f"{room}/crates/{crate}", stdin=subprocess.DEVNULL, stdout=sys.stderr)
    return read(f"{room}/crates/{crate}/out/{crate}")


def programs_of(room, programs, *words):
    """Returns the programs by name, out of one proof in a room of their own. Input: their sources."""
    copy(room, programs)
    found = proved(room, programs, *words)
    return {it.name: run_program(room, it.crate) for it in programs} if found is None else found


def drop_old(room, crate):
    """Removes the programs of a crate that were built first, with their sums."""
    found = [it for it in os.listdir(room) if it.startswith(f"{crate}-") and "." not in it]
    for name in sorted(found, key=lambda it: os.path.getmtime(f"{room}/{it}"))[:-KEPT]:
        room.remove(f"{name}{SUM}")
        room.remove(name)


def build(program, sources):
    """Builds a program under this path, which has the sum of its sources, unless another caller has done so."""
    room = files.cache_room(os.path.dirname(program))
    with alone(room):
        if os.access(f"{program}{SUM}", os.R_OK):
            return
        rt()
        say(f"{sources.name} isn't built for these sources: it is built now, which proves it first")
        with files.new_room("build-", room) as work:
            made = programs_of(work, [sources])[sources.name]
            if not program.endswith(sources.sum(work)):
                raise Refusal("the sources changed while they were read: call again")
        drop_old(room, sources.crate)
        files.replace(program, made, 0o755)
        files.replace(f"{program}{SUM}", f"{hashlib.sha256(made).hexdigest()}  {os.path.basename(program)}\n".encode())
