"""How far a run is: a line that changes on a terminal, lines from time to time elsewhere.

Input: how many cells there are, and each one that is done. Output: lines on standard error."""

import sys
import time

from tool.ends import say

NAME = "cabal-plan set"
# The seconds between two changes of the line, and between two lines.
EACH, SELDOM = 0.2, 10
CLEAR = "\r\x1b[K"


class Progress:
    """The cells that are to be done, and those that are."""

    def __init__(self, total):
        self.total, self.ran, self.kept, self.begun, self.is_shown = total, 0, 0, time.monotonic(), False
        self.is_terminal = sys.stderr is not None and sys.stderr.isatty()
        self.each = EACH if self.is_terminal else SELDOM
        self.next = self.begun + self.each

    def step(self, is_kept):
        """Counts a cell, one that was done before or that was run now."""
        self.kept, self.ran = self.kept + is_kept, self.ran + (not is_kept)
        now = time.monotonic()
        if now >= self.next:
            self.next = now + self.each
            self.show(self.text(now))

    def text(self, now):
        """Returns the state as a text."""
        done, rate = self.kept + self.ran, self.ran / max(now - self.begun, 1e-9)
        rest = max(self.total - done, 0)
        left = f", {rest / rate:.0f} s left" if rate and rest else ""
        return f"{done} of {max(self.total, done)} cells, {rate:.0f} a second{left}"

    def show(self, text):
        if not self.is_terminal:
            say(NAME, text)
            return
        self.print(f"{CLEAR}{text}")
        self.is_shown = True

    def end(self):
        if self.is_shown:
            self.print(CLEAR)

    @staticmethod
    def print(text):
        try:
            print(text, end="", file=sys.stderr, flush=True)
        except OSError:
            pass
