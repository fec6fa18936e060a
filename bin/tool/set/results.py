"""The results of a set: a line of JSON a cell, in `cells.jsonl`.

Input: a folder. Output: the records by their keys. A line is appended whole; a later one with the same key counts. A cell
that failed counts as not done."""

import json
import os

from tool.files import Lines, made_room
from tool.refusal import Refusal, shown
from tool.set.run import FAILED

FILE = "cells.jsonl"
# How each line begins: the key, and the verdict.
HEAD, DIGITS = b'{"key":"', 64
BEHIND = b'","verdict":"'
FAILURE = FAILED.encode() + b'"'


class Results:
    """The records of a folder, with the place of each."""

    def __init__(self, folder):
        made_room(folder)
        self.path = f"{folder}/{FILE}"
        self.lines, self.places, self.failed = Lines(self.path), {}, set()
        try:
            with open(self.path, "rb") as file:
                self.find(file)
        except BaseException:
            self.close()
            raise

    def find(self, file):
        """Finds the place of each record."""
        at = 0
        for number, line in enumerate(file, 1):
            self.note(key_of(line, f"{self.path}:{number}"), line, at)
            at += len(line)

    def note(self, key, line, at):
        """Keeps the place of a record."""
        self.places[key] = at
        (self.failed.add if line.startswith(FAILURE, len(HEAD) + DIGITS + len(BEHIND)) else self.failed.discard)(key)

    def has(self, key):
        """Returns whether a cell is done."""
        return key in self.places and key not in self.failed

    def add(self, line):
        """Appends the line of a record, and returns its key."""
        key = key_of(line, "a worker's line")
        self.note(key, line, self.lines.append(line))
        return key

    def records(self, keys):
        """Yields the records of these keys, or none for each that isn't there."""
        with open(self.path, "rb") as file:
            for key in keys:
                if key in self.places:
                    file.seek(self.places[key])
                yield record_of(file.readline(), self.path) if key in self.places else None

    def close(self):
        self.lines.close()


def key_of(line, where):
    """Returns the key of a line, and refuses a line that is no record."""
    try:
        if not line.startswith(HEAD) or not line.startswith(BEHIND, len(HEAD) + DIGITS):
            raise ValueError
        return bytes.fromhex(line[len(HEAD) : len(HEAD) + DIGITS].decode())
    except ValueError as error:
        raise Refusal(f"{shown(where)}: this is no result of a cell") from error


def record_of(line, where):
    """Returns the record of a line."""
    try:
        return json.loads(line)
    except (ValueError, RecursionError) as error:
        raise Refusal(f"{shown(where)}: the line of the cell {shown(line[:80].decode('utf-8', 'replace'))} is damaged") from error


class Earlier:
    """The results of an earlier run: for each cell by its target, compiler and setting the place of its last record."""

    def __init__(self, path):
        self.path = f"{path}/{FILE}" if os.path.isdir(path) else path
        self.places = {}
        try:
            self.file = open(self.path, "rb")  # (kept open: records are read out of it)
        except OSError as error:
            raise Refusal(f"{shown(self.path)} can't be read: {error.strerror}") from error
        at = 0
        for number, line in enumerate(self.file, 1):
            key_of(line, f"{self.path}:{number}")
            if line.endswith(b"\n"):
                self.places[self.cell(record_of(line, self.path))] = at
            at += len(line)

    @staticmethod
    def cell(record):
        return tuple(record.get(it) for it in ("target", "compiler", "setting"))

    def record(self, cell):
        """Returns the record of a cell, or none."""
        if cell not in self.places:
            return None
        self.file.seek(self.places[cell])
        return record_of(self.file.readline(), self.path)
