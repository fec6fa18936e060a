"""The folder of a page, replaced whole.

A new folder is filled beside the old one, and then takes its place. An old one is replaced only if it has the tool's mark,
which names the folder itself by its number in the file system, and has nothing but what the tool makes there."""

import contextlib
import os
import re
import secrets
import stat

from tool import files
from tool.ends import hold, release
from tool.folder.made import MARK, mark
from tool.refusal import Refusal, shown

KIND = "page"
FILES = (MARK, "index.html", "page.css", "page.js", "table.js")
PACKAGES, DATA = "packages", "data"
NAME = re.compile(r"[a-z0-9_-]{1,120}\.(html|js)")
ENDS = {PACKAGES: "html", DATA: "js"}


def is_made(path, mode):
    """Returns whether the tool makes a file of this mode at this path."""
    if len(path) == 1:
        return stat.S_ISDIR(mode) if path[0] in ENDS else stat.S_ISREG(mode) and path[0] in FILES
    found = NAME.fullmatch(path[-1])
    return len(path) == 2 and stat.S_ISREG(mode) and found is not None and found[1] == ENDS.get(path[0])


class Place:
    """The place of a folder: its path, the folder above it with its handle, and its name there."""

    def __init__(self, path, above, within, name):
        self.path, self.above, self.within, self.name = shown(path), above, within, name

    def check(self):
        """Refuses if something is here that this tool hasn't made. Returns whether a folder is here."""
        foreign = f"{self.path} is here already, and this tool hasn't made it (or it is a copy): move it away"
        try:
            with files.opened(self.name, self.within) as handle:
                if os.listdir(handle) and files.small_file(MARK, handle) != mark(handle, KIND):
                    raise Refusal(foreign)
                files.look(handle, is_made)
        except FileNotFoundError:
            return False
        except NotADirectoryError as error:
            raise Refusal(foreign) from error
        except files.Foreign as of:
            raise Refusal(f"{self.path} has {shown(of)}, which this tool hasn't made: move it away") from of
        return True

    def beside(self, end):
        return f"{self.name}.{secrets.token_hex(8)}.{end}"

    def set(self, new):
        """Puts the new folder in the place of the old one. A signal waits for the end of it."""
        old = self.beside("old")
        hold()
        try:
            has_old = self.check()
            if has_old:
                files.rename(self.name, old, self.within)
            try:
                files.rename(new, self.name, self.within)
            except BaseException:
                if has_old:
                    files.rename(old, self.name, self.within)
                raise
            if has_old:
                files.remove_folder(old, self.within, is_made, MARK)
        finally:
            release()


class Folder:
    """A new folder to fill. A failed write is named."""

    def __init__(self, handle, path):
        self.filling, self.path = files.Filling(handle), path

    def put(self, name, data):
        try:
            self.filling.put(name, data)
        except OSError as error:
            raise Refusal(f"{self.path}/{name} can't be written: {error.strerror}") from error


@contextlib.contextmanager
def place_of(path):
    """Yields the place of a folder. The folder above it exists."""
    above, name = os.path.split(os.path.abspath(path))
    if not name:
        raise Refusal(f"{shown(path)} can't be replaced by a page")
    try:
        handle = os.open(above, os.O_RDONLY | os.O_DIRECTORY | os.O_CLOEXEC)
    except OSError as error:
        raise Refusal(f"{shown(path)} can't be written: {shown(above)}: {error.strerror}") from error
    try:
        yield Place(path, above, handle, name)
    finally:
        os.close(handle)


@contextlib.contextmanager
def replaced(place):
    """Yields a new folder to fill, which then takes the place of the old one. If it isn't filled, nothing is changed."""
    new = place.beside("new")
    try:
        files.make_folder(new, place.within)
    except OSError as error:
        raise Refusal(f"{place.path} can't be written: {error.strerror}") from error
    try:
        with files.opened(new, place.within) as handle:
            folder = Folder(handle, place.path)
            folder.put(MARK, mark(handle, KIND))
            yield folder
        place.set(new)
    finally:
        if files.kind_of(new, place.within) is not None:
            files.remove_folder(new, place.within, is_made, MARK)
