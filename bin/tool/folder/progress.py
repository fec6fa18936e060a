"""A line that shows how far a long reading is, on a terminal alone. It is gone at the end."""

import shutil
import sys
import time

from tool.refusal import shown

# The seconds before the line is shown, and between two changes of it.
FIRST, EACH = 0.5, 0.2
CLEAR = "\r\x1b[K"


class Progress:
    """The line: its text, and how many bytes are to be read."""

    def __init__(self, text, size):
        self.text, self.size, self.is_shown = shown(text), max(size, 1), False
        self.next = time.monotonic() + FIRST if sys.stderr is not None and sys.stderr.isatty() else None

    def at(self, place):
        """Shows that the reading is at this byte."""
        if self.next is not None and time.monotonic() >= self.next:
            width = max((shutil.get_terminal_size().columns or 80) - 8, 8)
            self.print(f"{CLEAR}{self.text[-width:]} {100 * place // self.size:>3} %")
            self.next, self.is_shown = time.monotonic() + EACH, True

    def end(self):
        if self.is_shown:
            self.print(CLEAR)

    @staticmethod
    def print(text):
        try:
            print(text, end="", file=sys.stderr, flush=True)
        except OSError:
            pass
