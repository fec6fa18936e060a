"""Refuses in turn each call that lists or reads, and each write. A run with a failed call must write nothing; a run
with a failed write must end after what was written before."""

import errno
import os
import subprocess

from torture.folders import fifty, project
from torture.running import CALL, WRITE, Others, is_failure, lay_out, name_of, room, shown, table
from tool import children, files

READ_FAULT, WRITE_FAULT, OUT_OF_MEMORY = 4, 5, 6
# The answer to each error of a system call, if there is only one possible answer.
ERRORS = {
    errno.EIO: READ_FAULT,
    errno.EACCES: READ_FAULT,
    errno.EMFILE: READ_FAULT,
    errno.ENOMEM: OUT_OF_MEMORY,
    # Another answer or the same: with ENOENT the file is missing, and an interrupted call may be repeated.
    errno.ENOENT: None,
    errno.ENOTDIR: None,
    errno.EINTR: None,
}
WRITE_ERRORS = errno.ENOSPC, errno.EIO, errno.EPIPE, errno.EINTR
FOLDERS = {"a project": project, "some fifty files": fifty}
SHORT = 7


def is_answer(ended):
    return ended.status in range(4) and not ended.err


def refuse_calls(program, name, folder, words, error, others):
    whole = program.run(folder, words)
    found = {}
    for number in range(1, whole.counts.calls + 1):
        ended = program.run(folder, words, (CALL, number, number, error))
        status = ERRORS[error]
        fails = ended.status in (READ_FAULT, OUT_OF_MEMORY) and is_failure(ended, ended.status) and not ended.out
        if not (fails and ended.status == status if status else fails or is_answer(ended)):
            others.add(f"{name}, call {number} with {name_of(error)}: {shown(ended)}")
        kind = "as without" if (ended.status, ended.out) == (whole.status, whole.out) else ended.status
        found[kind] = found.get(kind, 0) + 1
    return whole.counts.calls, ", ".join(f"{kind}: {count}" for kind, count in sorted(found.items(), key=str))


def refuse_writes(program, name, folder, words, error, most, others):
    """Each write fails in turn, with at most so many bytes a write."""
    whole = program.run(folder, words, most=most)
    plain = program.run(folder, words)
    if (whole.status, whole.out) != (plain.status, plain.out):
        others.add(f"{name}, writes of {most} bytes: {shown(whole)}")
    for number in range(1, whole.counts.writes + 1):
        ended = program.run(folder, words, (WRITE, number, number, error), most)
        wanted = whole.out[: (number - 1) * most] if most else b""
        if not is_failure(ended, WRITE_FAULT) or ended.out != wanted:
            others.add(f"{name}, write {number} with {name_of(error)}: {shown(ended)}")
    return whole.counts.writes


def closed_outputs(program, folder, others):
    """Outputs as a shell gives them: a full device, a closed output, and a pipe that nobody reads."""
    rows = []
    read, write = os.pipe()
    os.close(read)
    with files.given_file("/dev/full") as full:
        for name, words, how in (
            ("a full device", "exec \"$0\" plan", {"stdout": full}),
            ("no standard output", "exec \"$0\" plan >&-", {}),
            ("a pipe that nobody reads", "exec \"$0\" plan", {"stdout": write}),
            ("neither standard output nor standard error", "exec \"$0\" plan >&- 2>&-", {}),
        ):
            ran = children.run(["sh", "-c", words, program.path], cwd=folder, stderr=subprocess.PIPE, **how)
            if ran.returncode != WRITE_FAULT:
                others.add(f"{name}: status {ran.returncode}")
            rows.append((name, ran.returncode, ran.stderr.decode().strip() or "nothing"))
    os.close(write)
    return rows


def run(program, _):
    others, rows, writes = Others(), [], []
    for name, made in FOLDERS.items():
        with room() as folder:
            lay_out(folder, made())
            for error in ERRORS:
                calls, ends = refuse_calls(program, name, folder, ["plan"], error, others)
                rows.append((name, name_of(error), calls, ends))
            for words in (["plan"], ["plan", "--json"]):
                for error in WRITE_ERRORS:
                    for most in (None, SHORT):
                        before = others.count
                        count = refuse_writes(program, name, folder, words, error, most, others)
                        writes.append((f"{name}, `{' '.join(words)}`", name_of(error), most or "all", count, count - (others.count - before)))
            outputs = closed_outputs(program, folder, others)
    table(("Folder", "Error", "Calls", "How the runs end, with each call refused in turn"), rows)
    table(("Run", "Error", "Bytes that a write takes", "Writes", "Runs that end with 5 and what was written before"), writes)
    table(("Output", "Status", "On standard error"), outputs)
    return others.count
