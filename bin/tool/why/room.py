"""A copy of a project in which changes are tried: links to its index and records, copies of its small files.

In: a folder, and changed texts by path. Out: the program's answer over the changed copy. The project stays as it is."""

import contextlib
import os

from tool.files import new_room
from tool.why.texts import data_of


class Copy:
    """A copy of the small files of a project: the room, the planner, and the paths that are changed at present."""

    def __init__(self, room, folder, planner):
        self.room, self.folder, self.planner, self.changed = room, folder, planner, set()
        for path in folder.project.texts:
            self.restore(path)
        for path in (folder.index, folder.installed):
            whole = os.path.abspath(f"{folder.folder}/{path}")
            if os.path.isdir(whole) and not os.path.lexists(f"{room}/{path}"):
                room.link(path, whole)

    def restore(self, path):
        """Writes a file as it is in the project."""
        data = data_of(f"{self.folder.folder}/{path}")
        if data is None:
            self.room.remove(path)
        else:
            self.room.write(path, data)

    def answer(self, changes, *further):
        """Plans with changed files: the text of each, or none for a file that is left out."""
        for path in self.changed - set(changes):
            self.restore(path)
        for path, text in changes.items():
            self.room.remove(path) if text is None else self.room.write(path, text)
        self.changed = set(changes)
        return self.planner.plan(self.room.path, *further)


@contextlib.contextmanager
def copy_of(folder, planner):
    """Yields a copy of a project, which is removed at the end."""
    with new_room("cabal-plan-why-") as room:
        yield Copy(room, folder, planner)
