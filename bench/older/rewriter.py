"""The rewriter of older files. In: the program, or none for the proved one, and files. Out: the bytes of each, or its refusal."""

import io
import re

from tool import files as own_files, modern
from tool.asked import program as chosen
from tool.program import MODERN

PATH = re.compile(rb"(?:unchanged|rewritten|missing) (.*)\n|refused (.*?)(?::\d+)? [A-Za-z0-9]+\n")


class Refused:
    """A refusal: the line, or 0 if it has none, and the cause."""

    def __init__(self, line, cause):
        self.line, self.cause = line, cause


class BadOutput(Exception):
    """The program's output isn't one of the frames that were agreed on."""


def answer(frame):
    """Returns what stands in for a file: its bytes, a refusal, or none if it stays as it is."""
    if frame.is_refused():
        return Refused(frame.line, frame.cause)
    return frame.text if frame.is_rewritten() else None


def rewritten(program, contents):
    """Returns what stands in for each file: its bytes, or a refusal. The files are keys with their contents."""
    names = {f"{number}.cabal": key for number, key in enumerate(contents)}
    with own_files.new_room("older-headers-") as room:
        for name, key in names.items():
            room.write(name, contents[key])
        answers = {names[it.path]: answer(it) for it in modern.frames(chosen(program, MODERN), room, list(names))}
    return {key: contents[key] if it is None else it for key, it in answers.items()}


def unframed(output):
    """Yields each path with its answer, which is none for a file that stays as it is. Missing files are left out."""
    stream = io.BytesIO(output)
    while found := PATH.match(output, stream.tell()):
        path = (found[1] or found[2]).decode("utf-8", "replace")
        frame = modern.Frames(stream).next(path, path)
        if frame.word != modern.MISSING:
            yield path, answer(frame)
    if stream.tell() < len(output):
        raise BadOutput(f"no frame before byte {stream.tell()}")


__all__ = ["BadOutput", "Refused", "rewritten", "unframed"]
