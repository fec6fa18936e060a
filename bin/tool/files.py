"""What the scripts write, rename and remove. Nothing else in `bin` and `bench` does.

A path below a folder is walked part by part from the folder's handle, and no link on it is followed. A new file never
replaces another one, except where a call says so. What is removed is looked at first."""

import contextlib
import errno
import fcntl
import os
import secrets
import shutil
import stat
import tempfile

from tool.ends import hold, release
from tool.refusal import Refusal, shown

FOLDER = os.O_RDONLY | os.O_DIRECTORY | os.O_NOFOLLOW | os.O_CLOEXEC
NEW_FILE = os.O_WRONLY | os.O_CREAT | os.O_EXCL | os.O_NOFOLLOW | os.O_CLOEXEC
OLD_FILE = os.O_WRONLY | os.O_NOFOLLOW | os.O_NONBLOCK | os.O_CLOEXEC
# The folders that a removal enters below one another, and the most bytes of a small file that is read.
DEEPEST, SMALL = 64, 4096
# The parts of a path that name no file of a folder.
NO_NAMES = {"", ".", ".."}


class Foreign(Exception):
    """A file that isn't of the tool: its path."""


def parts(path):
    """Returns the names of a path below a folder."""
    names = path.split("/")
    if "\0" in path or not NO_NAMES.isdisjoint(names):
        raise Refusal(f"'{shown(path)}' isn't a path below a folder")
    return names


def open_folder(name, within=None):
    """Returns the handle of a folder, which is no link."""
    return os.open(name, FOLDER, dir_fd=within)


@contextlib.contextmanager
def opened(name, within=None):
    """Opens a folder, which is no link, and closes it."""
    handle = open_folder(name, within)
    try:
        yield handle
    finally:
        os.close(handle)


def kind_of(name, within):
    """Returns the kind of a file by its mode, or none if it is missing. A link isn't followed."""
    try:
        return os.stat(name, dir_fd=within, follow_symlinks=False).st_mode
    except FileNotFoundError:
        return None


def small_file(name, within):
    """Returns the first bytes of a regular file, or none if it is missing or something else. It never waits."""
    try:
        handle = os.open(name, os.O_RDONLY | os.O_NOFOLLOW | os.O_NONBLOCK | os.O_CLOEXEC, dir_fd=within)
    except OSError:
        return None
    try:
        return os.read(handle, SMALL) if stat.S_ISREG(os.fstat(handle).st_mode) else None
    finally:
        os.close(handle)


def write_all(handle, data):
    """Writes all bytes."""
    left = memoryview(data)
    while left:
        left = left[os.write(handle, left) :]


def put(name, data, within, mode=0o644):
    """Makes a file with this content. It must be missing."""
    handle = os.open(name, NEW_FILE, mode, dir_fd=within)
    try:
        write_all(handle, data)
        if mode & 0o111:
            os.fchmod(handle, mode)
    finally:
        os.close(handle)


@contextlib.contextmanager
def parent(top, path):
    """Opens the folder of a path below a folder, and yields its handle and the last name of the path."""
    *folders, last = parts(path)
    at = os.dup(top)
    try:
        for name in folders:
            below = open_folder(name, at)
            os.close(at)
            at = below
        yield at, last
    finally:
        os.close(at)


class Filling:
    """A new folder that is being filled: its handle, and its path for programs that read there. Its folders are made as they
    are needed. Those of the last path stay open for the next one."""

    def __init__(self, handle, path=None):
        self.handle, self.path, self.names, self.handles = handle, path, [], [handle]

    def close(self):
        """Closes the folders of the last path."""
        self._leave(0)

    def _leave(self, depth):
        """Closes the folders that are deeper than this."""
        del self.names[depth:]
        while len(self.handles) > depth + 1:
            os.close(self.handles.pop())

    def _parent(self, path):
        """Opens the folder of a path, and returns its handle and the last name of the path."""
        *folders, last = parts(path)
        if folders != self.names:
            self._leave(len(os.path.commonprefix([folders, self.names])))
            for name in folders[len(self.names) :]:
                with contextlib.suppress(FileExistsError):
                    os.mkdir(name, dir_fd=self.handles[-1])
                self.handles.append(open_folder(name, self.handles[-1]))
                self.names.append(name)
        return self.handles[-1], last

    def put(self, path, data, mode=0o644):
        at, name = self._parent(path)
        put(name, data, at, mode)

    def link(self, path, target):
        at, name = self._parent(path)
        os.symlink(target, name, dir_fd=at)

    def remove(self, path):
        """Removes a file or a link."""
        at, name = self._parent(path)
        os.unlink(name, dir_fd=at)

    def rewrite(self, path, data):
        """Puts these bytes into a file that this has made. It is no link, and has no other name."""
        at, name = self._parent(path)
        handle = os.open(name, OLD_FILE, dir_fd=at)
        try:
            of = os.fstat(handle)
            if not stat.S_ISREG(of.st_mode) or of.st_nlink != 1:
                raise FileExistsError(errno.EEXIST, os.strerror(errno.EEXIST), name)
            write_all(handle, data)
            os.ftruncate(handle, len(data))
        finally:
            os.close(handle)


def entries(handle):
    """Returns the names in a folder with their modes."""
    return [(name, kind_of(name, handle)) for name in sorted(os.listdir(handle))]


def look(handle, is_made, path=()):
    """Raises an error if a folder has something for which `is_made`, of its path and mode, says no."""
    for name, mode in entries(handle):
        at = (*path, name)
        if len(at) > DEEPEST or mode is None or not is_made(at, mode):
            raise Foreign("/".join(at))
        if stat.S_ISDIR(mode):
            with opened(name, handle) as below:
                look(below, is_made, at)


def empty(handle, last=None):
    """Removes what is in a folder, and the file of the name `last` after all others."""
    for name, mode in sorted(entries(handle), key=lambda it: it[0] == last):
        if mode is not None and stat.S_ISDIR(mode):
            with opened(name, handle) as below:
                empty(below)
            os.rmdir(name, dir_fd=handle)
        else:
            os.unlink(name, dir_fd=handle)


def remove_folder(name, within, is_made, last=None):
    """Removes a folder, if all in it is of the tool; else it raises an error before anything is removed. The file `last`
    goes at the end, so that a folder of which a part is removed can still be told."""
    with opened(name, within) as handle:
        look(handle, is_made)
        empty(handle, last)
    os.rmdir(name, dir_fd=within)


def unlink(name, within):
    """Removes a file or a link."""
    os.unlink(name, dir_fd=within)


def remove_empty(name, within):
    """Removes a folder that has nothing in it."""
    os.rmdir(name, dir_fd=within)


def remove_if_empty(name, within):
    """Removes a folder, unless it has something in it."""
    try:
        os.rmdir(name, dir_fd=within)
    except OSError as error:
        if error.errno not in (errno.ENOTEMPTY, errno.EEXIST, errno.ENOTDIR):
            raise


def make_folder(name, within=None):
    """Makes a folder. It must be missing."""
    os.mkdir(name, dir_fd=within)


def rename(old, new, within):
    """Gives a file of a folder another name there, which must be missing or an empty folder."""
    if kind_of(new, within) is not None and not stat.S_ISDIR(kind_of(new, within)):
        raise FileExistsError(errno.EEXIST, os.strerror(errno.EEXIST), new)
    os.rename(old, new, src_dir_fd=within, dst_dir_fd=within)


def set_link(name, target, within, room, is_made):
    """Sets a link in a folder in one step. It replaces only a link for whose target `is_made` says yes. `room` is the
    handle of another folder, in which the new link is made first."""
    mode = kind_of(name, within)
    if mode is None:
        os.symlink(target, name, dir_fd=within)
        return
    if not stat.S_ISLNK(mode) or not is_made(os.readlink(name, dir_fd=within)):
        raise FileExistsError(errno.EEXIST, os.strerror(errno.EEXIST), name)
    if os.readlink(name, dir_fd=within) == target:
        return
    new = f"link-{secrets.token_hex(8)}"
    os.symlink(target, new, dir_fd=room)
    try:
        os.rename(new, name, src_dir_fd=room, dst_dir_fd=within)
    except OSError:
        os.unlink(new, dir_fd=room)
        raise


def replace(path, data, mode=0o644):
    """Replaces a regular file in one step, or makes it if it is missing."""
    with contextlib.suppress(FileNotFoundError):
        if not stat.S_ISREG(os.lstat(path).st_mode):
            raise Refusal(f"{path} is no regular file, and isn't replaced")
    new = f"{path}.{secrets.token_hex(8)}.new"
    try:
        put(new, data, None, mode)
        os.replace(new, path)
    except BaseException:
        with contextlib.suppress(FileNotFoundError):
            os.unlink(new)
        raise


def replace_folder(path, files):
    """Replaces a folder of regular files by one with these: their bytes and modes by name. All of them are written
    before anything is renamed. Nobody sees a part of the new files beside a part of the old ones."""
    beside = f"{path}.{secrets.token_hex(8)}"
    new, old = f"{beside}.new", f"{beside}.old"
    os.mkdir(new)
    try:
        for name, (data, mode) in files.items():
            put(f"{new}/{name}", data, None, mode)
        has_old = os.path.lexists(path)
        if has_old:
            with opened(path) as handle:
                look(handle, lambda at, mode: len(at) == 1 and stat.S_ISREG(mode))
            os.rename(path, old)
        try:
            os.rename(new, path)
        except BaseException:
            if has_old:
                os.rename(old, path)
            raise
    except Foreign as foreign:
        raise Refusal(f"{path} has {foreign}, which is no regular file, and isn't replaced") from foreign
    finally:
        shutil.rmtree(new, ignore_errors=True)
    shutil.rmtree(old, ignore_errors=True)


@contextlib.contextmanager
def given_file(path):
    """Opens a file that the user named, or one in a room of the script, to write it anew."""
    with open(path, "wb", buffering=1 << 22) as file:
        yield file


class Room:
    """A folder of a script's own, which made it."""

    def __init__(self, path):
        self.path = os.fspath(path)

    def __str__(self):
        return self.path

    def __fspath__(self):
        return self.path

    def folder(self, path):
        """Makes a folder with those above it, and returns its whole path."""
        whole = f"{self.path}/{'/'.join(parts(path))}"
        os.makedirs(whole, exist_ok=True)
        return whole

    def _place(self, path):
        names = parts(path)
        if names[1:]:
            self.folder("/".join(names[:-1]))
        return f"{self.path}/{path}"

    def _made(self, path, make):
        """Makes something with a function of its whole path. The folders above it are made only where they are missing."""
        parts(path)
        try:
            return make(f"{self.path}/{path}")
        except FileNotFoundError:
            return make(self._place(path))

    def write(self, path, content):
        """Writes a file, with the folders above it."""
        with self._made(path, lambda it: open(it, "wb")) as file:
            file.write(content.encode() if isinstance(content, str) else content)

    def link(self, path, target):
        """Makes a link, with the folders above it."""
        self._made(path, lambda it: os.symlink(target, it))

    def allow(self, path):
        """Lets a file be run."""
        os.chmod(f"{self.path}/{'/'.join(parts(path))}", 0o755)

    def copy(self, source, path, without=()):
        """Copies a file, or a folder without the files of these names. Links stay links."""
        if os.path.isdir(source):
            shutil.copytree(source, self._place(path), symlinks=True, ignore=shutil.ignore_patterns(*without), dirs_exist_ok=True)
        else:
            shutil.copyfile(source, self._place(path))

    def share(self, source, path):
        """Copies a folder by links to its files, or copies them if they are on another disk."""
        shutil.copytree(source, self._place(path), copy_function=hard_link)

    def remove(self, path):
        """Removes a file or a folder, if it is there."""
        whole = f"{self.path}/{'/'.join(parts(path))}"
        if os.path.islink(whole) or not os.path.isdir(whole):
            with contextlib.suppress(FileNotFoundError):
                os.remove(whole)
        else:
            shutil.rmtree(whole)


def scratch(within):
    """Returns a new file without a name, on the disk of a folder."""
    return tempfile.TemporaryFile(dir=within)


def taken(file):
    """Returns what a file of the script's own has, and empties it: what is written next stands at its front."""
    handle = file.fileno()
    found = os.pread(handle, os.fstat(handle).st_size, 0)
    if found:
        os.ftruncate(handle, 0)
        os.lseek(handle, 0, os.SEEK_SET)
    return found


@contextlib.contextmanager
def lock_file(room, name):
    """Opens a file of a room to lock it, and makes it if it is missing. It is a regular file, and no link."""
    handle = os.open(f"{room}/{name}", os.O_RDWR | os.O_CREAT | os.O_NOFOLLOW | os.O_NONBLOCK | os.O_CLOEXEC, 0o600)
    try:
        if not stat.S_ISREG(os.fstat(handle).st_mode):
            raise Refusal(f"{room}/{name} is no regular file")
        yield handle
    finally:
        os.close(handle)


def hard_link(one, other):
    """Links a file, or copies it if the other name is on another disk."""
    try:
        os.link(one, other)
    except OSError:
        shutil.copyfile(one, other)


@contextlib.contextmanager
def new_room(prefix, within=None):
    """Yields a new folder, which is removed at the end. A signal waits until the folder is sure to be removed."""
    hold()
    try:
        made = tempfile.TemporaryDirectory(prefix=prefix, dir=within)
    except BaseException:
        release()
        raise
    with made as path:
        release()
        yield Room(path)


def made_room(path):
    """Returns the room of a folder in a room of the script, made if it is missing."""
    os.makedirs(path, exist_ok=True)
    return Room(path)


def cache_room(path):
    """Returns the room of a folder that the user's environment names, made if it is missing. It must be the user's own."""
    os.makedirs(path, mode=0o700, exist_ok=True)
    of = os.lstat(path)
    if not stat.S_ISDIR(of.st_mode) or of.st_uid != os.geteuid():
        raise Refusal(f"{path} is a link, or another user's, and nothing is written there")
    return Room(path)


class Lines:
    """A file of lines that only grows. A line is appended whole, and the remains of a torn last one are cut off. Only one
    run at a time has it open."""

    def __init__(self, path):
        self.path = path
        self.handle = os.open(path, os.O_RDWR | os.O_CREAT | os.O_NOFOLLOW | os.O_NONBLOCK | os.O_CLOEXEC | os.O_APPEND, 0o644)
        try:
            if not stat.S_ISREG(os.fstat(self.handle).st_mode):
                raise Refusal(f"{path} is no regular file")
            fcntl.flock(self.handle, fcntl.LOCK_EX | fcntl.LOCK_NB)
            self.size = self.whole()
            os.ftruncate(self.handle, self.size)
        except BaseException as error:
            os.close(self.handle)
            if isinstance(error, BlockingIOError):
                raise Refusal(f"another run writes {path}: wait for its end") from error
            raise

    def whole(self):
        """Returns where the last whole line ends."""
        at = os.fstat(self.handle).st_size
        while at > 0:
            start = max(0, at - SMALL)
            found = os.pread(self.handle, at - start, start).rfind(b"\n")
            if found >= 0:
                return start + found + 1
            at = start
        return 0

    def append(self, line):
        """Appends a line, and returns where it begins. If it can't be written whole, nothing of it stays."""
        at = self.size
        try:
            write_all(self.handle, line)
        except BaseException:
            os.ftruncate(self.handle, at)
            raise
        self.size += len(line)
        return at

    def close(self):
        os.close(self.handle)


@contextlib.contextmanager
def locked_folder(path):
    """Lets one caller at a time make or remove what stands in a folder."""
    handle = os.open(path, os.O_RDONLY | os.O_DIRECTORY | os.O_CLOEXEC)
    try:
        fcntl.flock(handle, fcntl.LOCK_EX)
        yield
    finally:
        os.close(handle)


@contextlib.contextmanager
def marked_room(within, prefix, mark):
    """Yields a new folder in another one, which is removed at the end. It has a file `mark`, which is locked meanwhile. What
    runs that were killed have left there is removed first."""
    with contextlib.ExitStack() as held:
        with locked_folder(within):
            for name in os.listdir(within):
                if name.startswith(prefix) and is_left(f"{within}/{name}", mark):
                    shutil.rmtree(f"{within}/{name}", ignore_errors=True)
            room = held.enter_context(new_room(prefix, within))
            fcntl.flock(held.enter_context(lock_file(room, mark)), fcntl.LOCK_EX)
        yield room


def is_left(path, mark):
    """Returns whether no run has locked the mark of a folder, or a run was killed before it set one."""
    try:
        handle = os.open(f"{path}/{mark}", os.O_RDWR | os.O_NOFOLLOW | os.O_NONBLOCK | os.O_CLOEXEC)
    except FileNotFoundError:
        return True
    except OSError:
        return False
    try:
        fcntl.flock(handle, fcntl.LOCK_EX | fcntl.LOCK_NB)
        return True
    except OSError:
        return False
    finally:
        os.close(handle)
