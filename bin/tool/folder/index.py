"""Reads an index of packages, as a folder or as the tar that cabal keeps.

Input: a path. Output: an index with the versions of a name, and the bytes of each `.cabal` file. A tar is read once as a
stream for the places of its files, and only these are kept. Of several entries of one path the last counts."""

import contextlib
import functools
import os
import re
import struct
import time

from tool.folder.progress import Progress
from tool.input import MOST, front
from tool.names import is_name
from tool.refusal import Refusal

BLOCK, CHUNK = 512, 1 << 18
# The marks of a tar's entry: a file, a long name of the next entry, or records about it.
FILE, LONG_NAME, RECORDS, CABAL = (b"0", b"\0"), b"L", b"x", b".cabal\0"
LONGER = (LONG_NAME, RECORDS)
# The parts of a head: the name, the digits of the size and what ends them, the kind, the mark of a tar, and the name's prefix.
HEAD, OCTAL, STOPS, USTAR = struct.Struct("100s24x11sc20xc100x5s83xc"), b"01234567", (b"\0", b" "), b"ustar"


def is_version(text):
    return is_name(text, "version")


@functools.lru_cache(maxsize=1 << 14)
def by_number(text):
    """Returns the key by which versions are compared."""
    return tuple(map(int, text.split(".")))


class Folder:
    """An index that is a folder: NAME/VERSION/NAME.cabal."""

    def __init__(self, path):
        self.path, self.told, self.stamp, self.names = os.path.abspath(path), path, None, set()

    def open(self):
        """Refuses a folder without any package. Its files are read when needed."""
        try:
            self.names = {it for it in os.listdir(self.path) if is_name(it, "package")}
            has_any = any(self.versions(it) for it in self.names)
        except OSError as error:
            raise Refusal(f"{self.path} can't be read: {error.strerror}") from error
        if not has_any:
            raise Refusal(f"{self.told} has no file NAME/VERSION/NAME.cabal: --index takes a folder of these, or a tar")

    def versions(self, name):
        """Returns the versions of a name."""
        if name not in self.names:
            return []
        try:
            there = os.listdir(f"{self.path}/{name}")
        except (FileNotFoundError, NotADirectoryError):
            return []
        except OSError as error:
            raise Refusal(f"{self.path}/{name} can't be read: {error.strerror}") from error
        return [it for it in there if is_version(it) and os.path.isfile(f"{self.path}/{name}/{it}/{name}.cabal")]

    def data(self, name, version):
        return front(f"{self.path}/{name}/{version}/{name}.cabal")

    def target(self, name, version):
        """Returns the folder of a version, for a link to it."""
        return f"{self.path}/{name}/{version}"

    def key(self, name, version):
        """Returns a key of this file, which changes with the file."""
        it = os.stat(f"{self.path}/{name}/{version}/{name}.cabal")
        return f"{self.path} {it.st_size} {it.st_mtime_ns}"


class Tar:
    """An index that is a tar: for each name its versions, each with the place of its bytes. A change of the tar changes
    `stamp`."""

    def __init__(self, path):
        self.path, self.told, self.places = os.path.abspath(path), path, {}
        try:
            self.file = open(path, "rb", buffering=0)  # (kept open: the files are read out of it)
            self.size = os.fstat(self.file.fileno()).st_size
            self.stamp = f"{self.path} {self.size} {os.fstat(self.file.fileno()).st_mtime_ns}"
        except OSError as error:
            raise Refusal(f"{path} can't be read: {error.strerror}") from error

    def open(self):
        """Finds the places of the files."""
        begun, progress = time.monotonic(), Progress(f"reads {self.told}", self.size)
        try:
            count = self.scan(progress)
        except OSError as error:
            raise Refusal(f"{self.path} can't be read: {error.strerror}") from error
        finally:
            progress.end()
        if not count:
            raise Refusal(f"{self.told} has no file NAME/VERSION/NAME.cabal: is it the tar of a package server?")
        self.told += f", which has {count} .cabal files in {self.size} bytes and was read in {time.monotonic() - begun:.1f} s"

    def bytes_at(self, at, count):
        return os.pread(self.file.fileno(), count, at)

    def scan(self, progress):
        """Finds the places of all `.cabal` files, and returns how many there are."""
        at, buffer, start, longer, larger = 0, b"", 0, None, None
        while True:
            if longer is None and larger is None:
                at = self.scan_plain(buffer, start, at)
            place = at - start
            if place + BLOCK > len(buffer):
                buffer, start, place = self.bytes_at(at, CHUNK), at, 0
                progress.at(at)
                if len(buffer) < BLOCK:
                    raise Refusal(f"{self.path} is cut off: it ends at byte {self.size} without the mark of its end; fetch it again: cabal update")
            if not buffer[place] and not buffer[place : place + BLOCK].strip(b"\0"):
                return sum(map(len, self.places.values()))
            kind = buffer[place + 156 : place + 157]
            size = larger if larger is not None and kind not in LONGER else self.size_of(buffer, place, at)
            if at + BLOCK + size > self.size:
                raise Refusal(
                    f"{self.path} is cut off: its entry at byte {at} has {size} bytes, and it ends at byte {self.size}; fetch it again: cabal update"
                )
            if kind in LONGER:
                path, bigger = self.about_next(kind, at + BLOCK, size)
                longer, larger = path or longer, larger if bigger is None else bigger
            else:
                if kind in FILE and (longer or buffer[place + 345] or CABAL in buffer[place : place + 100]):
                    self.note(longer or name_of(buffer[place : place + BLOCK]), at + BLOCK, size)
                longer = larger = None
            at += BLOCK + (size + BLOCK - 1) // BLOCK * BLOCK

    def scan_plain(self, buffer, start, at):
        """Finds the places of the plain files from this byte on: those with a short name, and a size in octal digits. Returns
        the byte of the first other entry, or of one that isn't whole in the buffer, whose first byte is at `start`."""
        place, last, end = at - start, len(buffer) - BLOCK, self.size - start
        while place <= last:
            name, digits, stop, kind, tar, prefix = HEAD.unpack_from(buffer, place)
            size, begin = octal(digits), place + BLOCK
            if tar != USTAR or kind not in FILE or prefix != b"\0" or stop not in STOPS or size is None or begin + size > end:
                break
            if CABAL in name:
                self.note(name[: name.index(0)], start + begin, size)
            place = begin + (size + BLOCK - 1) // BLOCK * BLOCK
        return start + place

    def about_next(self, kind, at, size):
        """Returns the path and the size that an entry gives the next one, or none for each."""
        if size > MOST:
            raise Refusal(f"{self.path} has {size} bytes about one entry at byte {at}, and the tool reads at most {MOST}")
        data = self.bytes_at(at, size)
        if kind == LONG_NAME:
            return data.rstrip(b"\0"), None
        told = records(data)
        if told is None or not told.get(b"size", b"0").isdigit():
            raise Refusal(f"{self.path} has records at byte {at} that can't be read")
        return told.get(b"path"), int(told[b"size"][:20]) if b"size" in told else None

    def size_of(self, buffer, place, at):
        """Returns how many bytes an entry has."""
        field = buffer[place + 124 : place + 136]
        if field[11] in b"\0 " and field[:11].isdigit() and buffer[place + 257 : place + 262] == b"ustar":
            with contextlib.suppress(ValueError):
                return int(field[:11], 8)
        head = buffer[place : place + BLOCK]
        if head[257:262] != b"ustar" and sum(head[:148]) + sum(head[156:]) + 8 * 32 != number(head[148:156]):
            packed = ": it is compressed, so unpack it first, with gunzip -k" if head[:2] == b"\x1f\x8b" and at == 0 else ""
            raise Refusal(f"{self.path} isn't a tar at byte {at}{packed}")
        size = number(field)
        if size is None:
            raise Refusal(f"{self.path} has an entry without a size at byte {at}")
        return size

    def note(self, path, at, size):
        """Keeps the place of a file if it is the `.cabal` file of a version."""
        parts = path.decode("utf-8", "replace").removeprefix("./").split("/")
        if len(parts) != 3 or parts[2] != parts[0] + ".cabal":
            return
        known = self.places.get(parts[0])
        if known is not None and (parts[1] in known or is_version(parts[1])):
            known[parts[1]] = at, size
        elif known is None and is_version(parts[1]) and is_name(parts[0], "package"):
            self.places[parts[0]] = {parts[1]: (at, size)}

    def versions(self, name):
        """Returns the versions of a name."""
        return list(self.places.get(name, ()))

    def has(self, name, version):
        return version in self.places.get(name, ())

    def data(self, name, version):
        at, size = self.places[name][version]
        # Of a file that is too large for the planner no more is kept than shows this.
        found = self.bytes_at(at, min(size, MOST + 1))
        if len(found) < min(size, MOST + 1):
            raise Refusal(f"{self.path} was changed while it was read: run this again")
        return found

    def target(self, _name, _version):
        """Returns none: a link can't lead into a tar."""
        return None


@functools.lru_cache(maxsize=1 << 14)
def octal(digits):
    """Returns the number of these octal digits, or none if they are something else. Many files have the same size."""
    return None if digits.strip(OCTAL) else int(digits, 8)


def number(field):
    """Returns the number in a field of a tar's head, or none."""
    if field[:1] == b"\x80":
        return int.from_bytes(field[1:], "big")
    digits = field.strip(b"\0 ")
    return int(digits, 8) if re.fullmatch(rb"[0-7]+", digits) else None


def name_of(head):
    """Returns the path in a tar's head."""
    name = head[: head.index(0) if 0 in head[:100] else 100][:100]
    prefix = head[345:500].split(b"\0")[0] if head[257:263] == b"ustar\0" else b""
    return prefix + b"/" + name if prefix else name


def records(data):
    """Returns the records of an entry about the next one, `LENGTH NAME=VALUE` in lines, or none if they can't be read."""
    found, at = {}, 0
    while at < len(data):
        blank = data.find(b" ", at, at + 8)
        length = data[at:blank] if blank > 0 else b""
        end = at + int(length) if length.isdigit() else 0
        if not blank < end <= len(data) or data[end - 1 : end] != b"\n":
            return None
        name, mark, value = data[blank + 1 : end - 1].partition(b"=")
        found[name], at = value, end
    return found
