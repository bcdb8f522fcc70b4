"""A line on standard error that tells how far a program is, where that is a terminal."""

import os
import sys
import time

INTERVAL = 0.2


def amount(count):
    """A number of bytes as people read it."""
    for unit in ("bytes", "KB", "MB"):
        if count < 1000:
            return f"{count:.1f} {unit}" if isinstance(count, float) else f"{count} {unit}"
        count /= 1000
    return f"{count:.1f} GB"


class Progress:
    """Writes itself over, five times a second at most, and is taken away by `clear`. `line` may tell other things than
    the documents and bytes of a tally."""

    def __init__(self, tally=None, line=None):
        self.line = line or (lambda: f"documents {tally.documents}, {amount(tally.bytes)}")
        self.live = sys.stderr is not None and sys.stderr.isatty()
        self.next = 0.0
        self.width = 0

    def show(self):
        if not self.live:
            return
        now = time.monotonic()
        if now >= self.next:
            self.next = now + INTERVAL
            self.put(self.line())

    def put(self, text):
        """Writes a text over the one before, cut where the terminal ends."""
        text = text[: max(1, columns() - 1)]
        sys.stderr.write("\r" + text + " " * (self.width - len(text)) + "\b" * max(0, self.width - len(text)))
        sys.stderr.flush()
        self.width = len(text)

    def clear(self):
        if self.live and self.width:
            self.put("")
            sys.stderr.write("\r")
            sys.stderr.flush()


def columns():
    try:
        return os.get_terminal_size(sys.stderr.fileno()).columns or 80
    except OSError:
        return 80
