"""Runs the program over folders, with refused calls of the system."""

import collections
import concurrent.futures
import contextlib
import errno
import os
import resource
import signal
import struct
import subprocess
import sys
import threading

from tool import files
from tool.children import child

HERE = os.path.dirname(os.path.realpath(__file__))
TOP = os.path.dirname(os.path.dirname(HERE))
EXAMPLES = f"{TOP}/examples"
STACK = 8 * 1024 * 1024
# The seconds after which a run is stopped.
PATIENCE = 20
NUMBERS = "=5Q"
MEMORY, CALL, WRITE = 0, 1, 2
FAILURES = {
    4: b"cabal-plan: a file or folder could not be read\n",
    5: b"cabal-plan: the output could not be written\n",
    6: b"cabal-plan: out of memory\n",
}

Ended = collections.namedtuple("Ended", "status out err seconds megabytes counts")
Counts = collections.namedtuple("Counts", "memory calls writes refused most", defaults=(0,) * 5)


def room():
    """Returns a folder for made files, in memory if there is room."""
    return files.new_room("torture-", "/dev/shm" if os.access("/dev/shm", os.W_OK) else None)


def lay_out(folder, contents):
    to = files.made_room(folder)
    for path, content in contents.items():
        to.write(path, content)


def files_of(folder):
    """Returns the files below a folder, as the bytes of each path."""
    found = {}
    for at, _, names in os.walk(folder):
        for name in names:
            with open(f"{at}/{name}", "rb") as file:
                found[os.path.relpath(f"{at}/{name}", folder)] = file.read()
    return dict(sorted(found.items()))


def side_by_side(call, given):
    """Calls it with each of these, on all processors, and returns the answers in order."""
    with concurrent.futures.ThreadPoolExecutor(len(os.sched_getaffinity(0))) as pool:
        yield from pool.map(call, given)


class Program:
    """The program, and the library that counts its requests and refuses some."""

    def __init__(self, work, path, keep=None):
        """work: the path of a room; keep: a folder for changed folders with an unexpected answer, or none."""
        # Each run has the usual stack, and a crash leaves no file.
        resource.setrlimit(resource.RLIMIT_STACK, (STACK, resource.getrlimit(resource.RLIMIT_STACK)[1]))
        resource.setrlimit(resource.RLIMIT_CORE, (0, 0))
        self.path, self.keep = path, keep
        self.faults = f"{work}/faults.so"
        subprocess.run(["gcc", "-shared", "-fPIC", "-O2", "-o", self.faults, f"{HERE}/faults.c"], check=True)

    def run(self, folder, words, refuse=None, most=None):
        """Runs it once. refuse: a kind, its first and last refused call, and the error's number; most: the most bytes
        of a write. The status is below 0 if a signal ended the run, and None if it was stopped."""
        counts = f"{self.faults}.{threading.get_ident()}"
        with files.given_file(counts) as file:
            file.write(bytes(struct.calcsize(NUMBERS)))
        given = {"LD_PRELOAD": self.faults, "FAULTS_COUNTS": counts}
        if refuse:
            given["FAULTS_REFUSE"] = " ".join(map(str, refuse))
        if most:
            given["FAULTS_SHORT"] = str(most)
        ended = self.timed(folder, words, {**os.environ, **given})
        with open(counts, "rb") as file:
            return ended._replace(counts=Counts(*struct.unpack(NUMBERS, file.read())))

    def timed(self, folder, words, given=None, seconds=PATIENCE):
        """Runs it without refusals, and measures its seconds of processor time, which other work doesn't change, and
        its peak of memory. It is stopped after so many of these seconds."""
        work = os.path.dirname(self.faults)
        with files.scratch(work) as out, files.scratch(work) as err:
            how = {"stdin": subprocess.DEVNULL, "stdout": out, "stderr": err, "cwd": folder, "env": given}
            with child([self.path, *words], **how) as ran:
                with contextlib.suppress(ProcessLookupError):
                    resource.prlimit(ran.pid, resource.RLIMIT_CPU, (seconds, seconds))
                _, status, used = os.wait4(ran.pid, 0)
                ran.returncode = os.waitstatus_to_exitcode(status)
            took = used.ru_utime + used.ru_stime
            out.seek(0)
            err.seek(0)
            # The system ends a run that has used up its seconds by one of two signals.
            status = None if ran.returncode in (-signal.SIGXCPU, -signal.SIGKILL) else ran.returncode
            return Ended(status, out.read(), err.read(), took, used.ru_maxrss / 1024, Counts())


def is_failure(ended, status):
    """Returns whether a run ended with this failure and its one line on standard error."""
    return ended.status == status and ended.err == FAILURES[status]


def shown(ended):
    first = ended.out[:70].decode("utf-8", "replace").split("\n")[0]
    return f"status {ended.status}, '{first}', {ended.err[:200]!r}"


def name_of(error):
    return errno.errorcode[error]


def table(heads, rows):
    """Prints rows as a table of the documents."""
    print("| " + " | ".join(heads) + " |")
    print("|" + "---|" * len(heads))
    for row in rows:
        print("| " + " | ".join(str(it) for it in row) + " |", flush=True)
    print(flush=True)


class Others:
    """The unexpected answers; some of them are printed."""

    MOST = 20

    def __init__(self):
        self.count = 0

    def add(self, text):
        self.count += 1
        if self.count <= self.MOST:
            print(f"other: {text}", file=sys.stderr, flush=True)
