"""Finds the index of cabal, or the one of the command line.

Input: a path or none. Output: an index: a folder, a tar, the archives of a `file+noindex` repository, or several of these in
one, as cabal merges its repositories."""

import os
import re
import zlib

from tool.elements import Field, Misread, Section, elements
from tool.folder.index import Folder, Tar
from tool.input import MOST, content, front
from tool.names import is_name
from tool.refusal import Refusal, shown

ARCHIVE = re.compile(r"(.+)-([0-9.]+)\.tar\.gz", re.S)
SCHEME = "file+noindex://"
# The most bytes of an archive that are unpacked until its `.cabal` file is found.
MOST_UNPACKED = 1 << 26


class Unpacked:
    """The bytes that a packed file unpacks to. No more are made than are read."""

    def __init__(self, file, path):
        self.file, self.path, self.inner, self.left = file, path, zlib.decompressobj(wbits=31), MOST_UNPACKED

    def read(self, count):
        """Returns at most so many bytes."""
        self.left -= count
        if self.left < 0:
            raise Refusal(f"{shown(self.path)} unpacks to more than {MOST_UNPACKED} bytes, and no .cabal file is among the first")
        found = []
        while count > 0 and not self.inner.eof:
            data = self.inner.decompress(self.inner.unconsumed_tail or self.file.read(1 << 16), count)
            if not data and not self.inner.unconsumed_tail and not self.inner.eof and not self.file.peek(1):
                break
            found.append(data)
            count -= len(data)
        return b"".join(found)


def packed_file(path, name):
    """Returns the bytes of a file in an archive, of a large one only the first."""
    import tarfile

    try:
        with open(path, "rb") as file, tarfile.open(fileobj=Unpacked(file, path), mode="r|") as tar:
            for it in tar:
                if it.name.removeprefix("./") == name and it.isreg():
                    return tar.extractfile(it).read(MOST + 1)
    except (OSError, EOFError, zlib.error, tarfile.TarError, ValueError) as error:
        raise Refusal(f"{shown(path)} can't be read: {getattr(error, 'strerror', None) or error}") from error
    raise Refusal(f"{shown(path)} has no {shown(name)}")


class Archives:
    """An index that is a folder of archives NAME-VERSION.tar.gz. A file NAME-VERSION.cabal beside one counts in place of
    the one in it."""

    def __init__(self, path):
        self.path, self.told, self.found = os.path.abspath(path), path, {}
        try:
            names = sorted(os.listdir(path))
            told = [(it, os.stat(f"{path}/{it}")) for it in names if it.endswith((".tar.gz", ".cabal")) and os.path.isfile(f"{path}/{it}")]
        except OSError as error:
            raise Refusal(f"{shown(path)} can't be read: {error.strerror}") from error
        self.stamp = repr((self.path, [(name, it.st_size, it.st_mtime_ns) for name, it in told]))
        for it in filter(None, (ARCHIVE.fullmatch(name) for name, _ in told)):
            if is_name(it[1], "package") and is_name(it[2], "version"):
                self.found.setdefault(it[1], {})[it[2]] = None

    def open(self):
        """Does nothing: an archive is read when needed."""

    def versions(self, name):
        return list(self.found.get(name, ()))

    def has(self, name, version):
        return version in self.found.get(name, ())

    def data(self, name, version):
        beside = f"{self.path}/{name}-{version}.cabal"
        return front(beside) if os.path.isfile(beside) else packed_file(f"{self.path}/{name}-{version}.tar.gz", f"{name}-{version}/{name}.cabal")

    def target(self, _name, _version):
        """Returns none: a link can't lead into an archive."""
        return None


class Merged:
    """Several indexes as one. Of a version that several have, the last one counts."""

    def __init__(self, sources):
        self.sources, self.path, self.stamp = sources, sources[0].path, "\n".join(it.stamp for it in sources)

    @property
    def told(self):
        return " and ".join(it.told for it in self.sources)

    def open(self):
        for it in self.sources:
            it.open()

    def versions(self, name):
        return list(dict.fromkeys(version for it in self.sources for version in it.versions(name)))

    def data(self, name, version):
        return next(it for it in reversed(self.sources) if it.has(name, version)).data(name, version)

    def target(self, _name, _version):
        return None


def places():
    """Returns the folders where cabal keeps the tars of its servers."""
    home = os.path.expanduser("~")
    cache = os.environ.get("XDG_CACHE_HOME") or f"{home}/.cache"
    given = [os.environ["CABAL_DIR"]] if os.environ.get("CABAL_DIR") else []
    return [f"{it}/packages" for it in dict.fromkeys([*given, f"{home}/.cabal", f"{cache}/cabal"])]


def found_tars():
    """Returns the tars that cabal has fetched."""
    found = []
    for place in places():
        servers = sorted(os.listdir(place)) if os.path.isdir(place) else []
        found += [f"{place}/{it}/01-index.tar" for it in servers if os.path.isfile(f"{place}/{it}/01-index.tar")]
    return list({os.path.realpath(it): it for it in reversed(found)}.values())


def config():
    """Returns the path of cabal's configuration, or none."""
    home = os.path.expanduser("~")
    given = [os.environ.get("CABAL_CONFIG") or "", f"{os.environ['CABAL_DIR']}/config" if os.environ.get("CABAL_DIR") else ""]
    user = os.environ.get("XDG_CONFIG_HOME") or f"{home}/.config"
    return next((it for it in [*given, f"{home}/.cabal/config", f"{user}/cabal/config"] if it and os.path.isfile(it)), None)


def local_repositories():
    """Returns the `file+noindex` repositories of cabal's configuration."""
    path = config()
    if not path:
        return []
    try:
        items = elements(content(path).decode("utf-8", "replace"))
    except Misread as error:
        raise Refusal(f"{path} can't be read: {error}; --index=PATH names an index") from error
    found = []
    for it in (it for it in items if isinstance(it, Section) and it.name == "repository"):
        url = "".join([field.text() for field in it.items if isinstance(field, Field) and field.name == "url"][-1:])
        if url.startswith(SCHEME):
            place = url[len(SCHEME) :].split("#")[0]
            if not os.path.isdir(place):
                raise Refusal(f"the repository {shown(it.args)} in {path} is {shown(place)}, and there is no such folder")
            found.append(place)
    return found


def of_cabal():
    """Returns the index of cabal: what it has fetched, and its repositories of archives."""
    tars, archives = found_tars(), local_repositories()
    if len(tars) > 1:
        raise Refusal(f"cabal has several indexes: name one of them by --index=PATH: {' '.join(tars)}")
    if not tars and not archives:
        raise Refusal(f"there is no 01-index.tar in {', '.join(places())}: run 'cabal update', or name a folder or a tar by --index=PATH")
    found = [*map(Tar, tars), *map(Archives, archives)]
    return Merged(found) if found[1:] else found[0]


def index(asked):
    """Returns the index of this path, or the one of cabal."""
    if not asked:
        return of_cabal()
    if not os.path.exists(asked):
        raise Refusal(f"there is no {shown(asked)}: --index takes a folder of NAME/VERSION/NAME.cabal, or a tar")
    if not os.path.isdir(asked):
        return Tar(asked)
    archives = Archives(asked)
    return archives if archives.found else Folder(asked)
