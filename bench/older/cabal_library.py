"""Cabal's own parser. In: the bytes of files. Out: what it reads of each, as the objects of `Parsed.hs`."""

import json
import os
import subprocess

from tool import files

SOURCE = f"{os.path.dirname(os.path.realpath(__file__))}/Parsed.hs"


class Missing(Exception):
    """Cabal's parser can't be had: why."""


class Cabal:
    """The program of `Parsed.hs`, built in a room, which also holds the files that it reads."""

    def __init__(self, room):
        self.room, self.program, self.count = room, f"{room}/parsed", 0
        try:
            words = ["ghc", "-O0", "-v0", "-outputdir", f"{room}/made", "-o", self.program, SOURCE]
            made = subprocess.run(words, stdout=subprocess.PIPE, stderr=subprocess.STDOUT, text=True)
        except OSError as error:
            raise Missing(f"ghc can't be run: {error}") from error
        if made.returncode:
            raise Missing(f"{SOURCE} isn't built; it needs ghc with its Cabal library:\n{made.stdout}")

    def parsed(self, contents):
        """Returns what Cabal reads of each content, by the same keys."""
        self.count += 1
        room, keys = files.made_room(f"{self.room}/{self.count}"), list(contents)
        for number, key in enumerate(keys):
            room.write(str(number), contents[key])
        paths = "".join(f"{room}/{number}\n" for number in range(len(keys)))
        ran = subprocess.run([self.program], input=paths.encode(), stdout=subprocess.PIPE, check=True)
        found = [json.loads(line) for line in ran.stdout.decode().split("\n")[:-1]]
        if len(found) != len(keys):
            raise Missing(f"{SOURCE} answers for {len(found)} of {len(keys)} files")
        return dict(zip(keys, found))


__all__ = ["Cabal", "Missing"]
