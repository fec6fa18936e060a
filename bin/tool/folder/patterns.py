"""The entries of `packages`: which paths one of them matches.

Input: a folder and an entry. Output: the paths. A directory is listed once, whatever links lead to it. What would take too
long is refused."""

import bisect
import os

from tool.refusal import Refusal, shown

# The most paths that an entry matches, and the most names that all entries are compared with.
MOST_PATHS, MOST_COMPARED = 20_000, 1_000_000


def fits(name, pieces):
    """Returns whether a name is these pieces, with any text between two of them. The first one is in front."""
    first, last = pieces[0], pieces[-1]
    if len(name) < len(first) + len(last) or not name.startswith(first) or not name.endswith(last):
        return False
    at, end = len(first), len(name) - len(last)
    for piece in pieces[1:-1]:
        at = name.find(piece, at, end)
        if at < 0:
            return False
        at += len(piece)
    return True


class Entries:
    """The entries over one folder, with the names in each directory that was listed."""

    def __init__(self, folder):
        self.folder, self.names, self.compared = folder, {}, 0

    def whole(self, path):
        return os.path.join(self.folder, path)

    def listed(self, path):
        """Returns the names in a directory, sorted, or none if it is something else."""
        try:
            it = os.stat(self.whole(path))
            of = it.st_dev, it.st_ino
            if of not in self.names:
                self.names[of] = sorted(os.listdir(self.whole(path)))
        except (NotADirectoryError, FileNotFoundError, ValueError):
            return []
        except OSError as error:
            raise Refusal(f"{shown(path or self.folder)} can't be read: {error.strerror}") from error
        return self.names[of]

    def starred(self, path, pieces):
        """Returns the names in a directory that fit."""
        names = self.listed(path)
        start = bisect.bisect_left(names, pieces[0])
        found = []
        for name in (names[at] for at in range(start, len(names))):
            self.compared += 1
            if not name.startswith(pieces[0]):
                break
            if (name[0] != "." or pieces[0][:1] == ".") and fits(name, pieces):
                found.append(name)
        return found

    def step(self, found, name):
        """Returns the paths one name further."""
        if "*" not in name:
            return [at + name for at in found if os.path.lexists(self.whole(at + name))]
        pieces, further = name.split("*"), []
        for at in found:
            further += [at + it for it in self.starred(at, pieces)]
            if len(further) > MOST_PATHS or self.compared > MOST_COMPARED:
                raise Refusal(f"the entries of packages match too many names, at {shown(name)}: name the packages")
        return further

    def matches(self, entry):
        """Returns the paths that an entry matches, relative to the folder."""
        found = [""]
        for name in (it for it in entry.split("/") if it not in ("", ".")):
            found = [f"{it}/" for it in self.step(found, name)]
            if not found:
                break
        return [it.rstrip("/") or "." for it in found]

    def files(self, entry):
        """Returns the `.cabal` files of an entry."""
        found = []
        for path in self.matches(entry):
            if os.path.isdir(self.whole(path)):
                names = [it for it in self.listed(path) if it.endswith(".cabal") and os.path.isfile(self.whole(f"{path}/{it}"))]
                found += [os.path.normpath(f"{path}/{it}") for it in names]
            elif path.endswith(".cabal") and not entry.endswith("/"):
                found.append(os.path.normpath(path))
            if len(found) > MOST_PATHS:
                raise Refusal(f"{shown(entry)} matches more than {MOST_PATHS} files: name the packages")
        return found
