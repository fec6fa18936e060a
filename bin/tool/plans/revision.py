"""Plans the project as it was in a commit.

In: a name of the commit. Out: the plan of its files, in a room. They are read by git's plumbing: nothing is checked out,
no hook, filter or other program of the repository runs, and nothing is fetched. Links in the commit are left out."""

import os
import re
import subprocess

from tool import files
from tool.ends import say
from tool.folder.project import FILES
from tool.plans import answers
from tool.refusal import Refusal, shown

GIT = ["git", "--no-optional-locks", "--literal-pathspecs", "-c", "core.fsmonitor=false", "-c", "core.hooksPath=/dev/null"]
QUIET = {"GIT_ALLOW_PROTOCOL": "", "GIT_NO_LAZY_FETCH": "1", "GIT_TERMINAL_PROMPT": "0", "LC_ALL": "C"}
ENTRY = re.compile(rb"(\d+) (\w+) ([0-9a-f]+) +(\d+|-)\t(.*)", re.S)
FILE, LINK, MODULE = (b"100644", b"100755"), b"120000", b"160000"
MOST_FILES, MOST_BYTES, LARGEST, AT_ONCE = 20_000, 268_435_456, 1_048_576, 200
NAME = "cabal-plan diff"


def git(*words, data=b""):
    """Returns the output of git in this folder, or refuses."""
    try:
        ran = subprocess.run([*GIT, *words], input=data, stdout=subprocess.PIPE, stderr=subprocess.PIPE, env={**os.environ, **QUIET}, check=False)
    except OSError as error:
        raise Refusal(f"git can't be run: {error.strerror}") from error
    if ran.returncode:
        why = shown(ran.stderr.decode("utf-8", "replace").strip().split("\n")[0])
        raise Refusal(f"git {words[0]} ends with status {ran.returncode}: {why or 'it names no cause'}")
    return ran.stdout


def commit_of(revision):
    """Returns the commit of a name. One that begins with `-` would be an option of git."""
    if revision.startswith("-"):
        raise Refusal(f"{shown(revision)} is no name of a commit")
    git("rev-parse", "--git-dir")
    try:
        return git("rev-parse", "--verify", f"{revision}^{{commit}}").decode().strip()
    except Refusal as error:
        raise Refusal(f"git has no commit {shown(revision)}") from error


class File:
    """A file of a commit: its path below the project's folder, its object, and its size."""

    def __init__(self, path, key, size):
        self.path, self.key, self.size = path, key, size


def folders_of(planning):
    """Returns the paths of `index` and `installed` in the words to plan with."""
    given = dict(it.partition("=")[::2] for it in planning)
    return [given.get("--index", "index"), given.get("--installed", "installed")]


def is_read(path, folders):
    """Returns whether the planner may read a file of this path."""
    return path in FILES or path.endswith(".cabal") or any(path == it or path.startswith(f"{it}/") for it in folders)


def files_of(commit, folders, revision):
    """Returns the files of a commit that the planner may read, below the project's folder."""
    prefix = os.fsdecode(git("rev-parse", "--show-prefix")).rstrip("\n")
    listed, kept, left = git("ls-tree", "-r", "-l", "-z", "--full-tree", f"{commit}:{prefix}"), [], []
    for mode, kind, key, size, name in (ENTRY.fullmatch(it).groups() for it in listed.split(b"\0") if it):
        path = os.fsdecode(name)
        if mode == MODULE or mode == LINK and is_read(path, folders) and path not in folders:
            left.append(path)
        elif kind == b"blob" and mode in FILE and is_read(path, folders):
            kept.append(File(path, key, int(size)))
    for path in left[:20]:
        say(NAME, f"{shown(path)} of {shown(revision)} is a link or a module, and isn't read")
    large = next((it for it in kept if it.size > LARGEST), None)
    if large:
        raise Refusal(f"{shown(large.path)} of {shown(revision)} has more than {LARGEST} bytes")
    if len(kept) > MOST_FILES or sum(it.size for it in kept) > MOST_BYTES:
        raise Refusal(f"{shown(revision)} has more files than the planner reads")
    return kept


def write(room, kept):
    """Writes the files of a commit into a room."""
    for at in range(0, len(kept), AT_ONCE):
        some = kept[at : at + AT_ONCE]
        data, place = git("cat-file", "--batch", data=b"".join(it.key + b"\n" for it in some)), 0
        for it in some:
            begin = data.index(b"\n", place) + 1
            if data[place:begin] != b"%s blob %d\n" % (it.key, it.size):
                raise Refusal(f"git lacks the content of {shown(it.path)}")
            room.write(it.path, data[begin : begin + it.size])
            place = begin + it.size + 1


def write_unknown(room, kept):
    """Copies the present project files that git doesn't know: neither now nor in the commit."""
    known = {os.fsdecode(it) for it in git("ls-files", "-z", "--", *FILES).split(b"\0")} | {it.path for it in kept}
    for name in (it for it in FILES if it not in known and os.path.isfile(it)):
        say(NAME, f"git doesn't know {name}: the present one counts for both")
        room.write(name, answers.data_of(name))


def planned_at(revision, planner, planning):
    """Returns the plan of the project's files in a commit. Folders that the commit lacks are the present ones."""
    commit, folders = commit_of(revision), folders_of(planning)
    kept = files_of(commit, folders, revision)
    with files.new_room("cabal-plan-") as room:
        write(room, kept)
        write_unknown(room, kept)
        for it in folders:
            if os.path.isdir(it) and not os.path.lexists(f"{room}/{it}"):
                room.link(it, os.path.realpath(it))
        return answers.planned(planner, room)
