"""An index without older headers: `modern-headers` rewrites its files, all in one run.

Input: an index, and a room. Output: an index with texts in place of the files that were rewritten, and all others as they are.
A file that the program refuses stays as it is, and is counted."""

import collections
import contextlib
import os

from tool import files, modern
from tool.folder.folder import check_found
from tool.folder.index import Folder
from tool.refusal import Refusal
from tool.set.stock import names_of

RAW, PROJECT = "older/raw", "older/project"


def files_of(source, room):
    """Yields the paths of an index, NAME/VERSION/NAME.cabal, and makes them files of the room unless it is a folder."""
    for name in names_of(source):
        for version in source.versions(name):
            path = f"{name}/{version}/{name}.cabal"
            if not isinstance(source, Folder):
                room.write(f"{RAW}/{path}", source.data(name, version))
            yield path


def rewritten_files(found, room, program):
    """Returns the files of a project, their bytes by their paths, those with older headers rewritten."""
    room.remove(PROJECT)
    named = {f"{at}.cabal": path for at, path in enumerate(found)}
    for name, path in named.items():
        room.write(f"{PROJECT}/{name}", found[path])
    made = {}
    with contextlib.closing(modern.frames(program, f"{room}/{PROJECT}", list(named))) as frames:
        for it in frames:
            it.path = named[it.path]
            if it.is_refused():
                raise Refusal(f"{it.place()}: {it.cause}: the file can't be rewritten for the planner")
            made[it.path] = it.text if it.is_rewritten() else found[it.path]
    return made


class Rewritten:
    """An index with texts in place of older files. They stand in one file without a name, each with its place."""

    def __init__(self, source, file):
        self.source, self.path, self.file, self.places = source, source.path, file, {}
        self.names = names_of(source)

    def put(self, path, text):
        """Keeps a text in place of the file at a path, NAME/VERSION/NAME.cabal."""
        self.places[tuple(path.split("/")[:2])] = self.file.tell(), len(text)
        self.file.write(text)

    def versions(self, name):
        return self.source.versions(name)

    def data(self, name, version):
        at, size = self.places.get((name, version), (None, 0))
        return self.source.data(name, version) if at is None else os.pread(self.file.fileno(), size, at)


def rewritten(source, room, program, say):
    """Returns an index that has the files of another one, those with older headers rewritten."""
    kinds, paths = collections.Counter(), list(files_of(source, room))
    raw, made = source.path if isinstance(source, Folder) else f"{room}/{RAW}", Rewritten(source, files.scratch(room))
    with contextlib.closing(modern.frames(program, raw, paths)) as frames:
        for it in frames:
            check_found(it)
            kinds[it.word] += 1
            if it.is_rewritten():
                made.put(it.path, it.text)
    made.file.flush()
    say(f"{len(paths)} files of the index" + "".join(f", {number} {it}" for it, number in sorted(kinds.items())))
    return made
