"""The messages of an mbox."""

import re

from mg_archives.refusals import REFUSED, Refusal, shown
from mg_archives.sources import BLOCK

# A line that begins a message has a sender, a time of day, a year, and a month or a date of numbers.
SENDER = re.compile(rb"From [^ \t]")
TIME = re.compile(rb"[ \tT][0-9]?[0-9]:[0-9][0-9]")
YEAR = re.compile(rb"[-/ \t,](?:19|20)[0-9][0-9](?:[^0-9]|$)")
MONTH = re.compile(
    rb"[- \t,](?:Jan|Feb|Mar|Apr|May|Jun|Jul|Aug|Sep|Oct|Nov|Dec)[a-z]*[- \t,.]|[ \t](?:19|20)[0-9][0-9][-/][0-9]"
)
BLANK = re.compile(rb"(?:\r?\n)*(?:\r\Z)?")
EMPTY_LINE = re.compile(rb"^\r?\n", re.M)
QUOTED = re.compile(rb"^>(>*From )", re.M)


def begins_message(line):
    """Whether a line behind an empty one is the first of a message."""
    return bool(SENDER.match(line) and TIME.search(line) and YEAR.search(line) and MONTH.search(line))


def without_last_line(message):
    """A message without the empty line that stands before the next one, or before the end."""
    if message.endswith(b"\n\n") or message == b"\n":
        return message[:-1]
    if message.endswith((b"\n\r\n", b"\n\r")) or message in (b"\r\n", b"\r"):
        return message[: message.rindex(b"\r")]
    return message


def unquoted(message):
    """A message with one `>` less before each `>From ` of its body."""
    if b"\n>" not in message:
        return message
    end = EMPTY_LINE.search(message)
    if not end:
        return message
    return message[: end.end()] + QUOTED.sub(rb"\1", message[end.end() :])


class Mbox:
    """An mbox that is read once, from a file or a pipe. `held` has what was read and not yet given."""

    def __init__(self, source):
        self.source = source
        self.held = bytearray()
        self.offset = 0
        self.line = 1

    def more(self):
        """Reads a block; whether there was one."""
        block = self.source.read(BLOCK)
        self.held += block
        return bool(block)

    def drop(self, count):
        """Forgets so many bytes at the beginning of what is held."""
        self.line += self.held.count(b"\n", 0, count)
        self.offset += count
        del self.held[:count]

    def end_of_line(self, start):
        """Where the line that begins here ends, its newline counted in."""
        searched = start
        while True:
            place = self.held.find(b"\n", searched)
            if place >= 0:
                return place + 1
            searched = len(self.held)
            if not self.more():
                return searched

    def begins_here(self, start):
        """Whether the line that begins here is the first of a message."""
        while len(self.held) < start + len(b"From ") and self.more():
            pass
        if not self.held.startswith(b"From ", start):
            return False
        return begins_message(bytes(self.held[start : self.end_of_line(start)]).rstrip(b"\r\n"))

    def ends_empty_line(self, place):
        """Whether the newline at this place ends an empty line."""
        if place and self.held[place - 1] == 13:
            place -= 1
        return not place or self.held[place - 1] == 10

    def end_of_message(self):
        """Where the line stands that begins the next message; the end where there is none."""
        if self.begins_here(0):
            return 0
        searched = 0
        while True:
            place = self.held.find(b"\nFrom ", searched)
            if place < 0:
                searched = max(0, len(self.held) - len(b"From "))
                if not self.more():
                    return len(self.held)
            elif self.ends_empty_line(place) and self.begins_here(place + 1):
                return place + 1
            else:
                searched = place + 1

    def messages(self):
        """Each message: its offset, its first line's number, and its bytes."""
        while not self.held.strip(b"\r\n") and self.more():
            pass
        self.drop(BLANK.match(self.held).end())
        while len(self.held) < len(b"From ") and self.more():
            pass
        if self.held and not self.held.startswith(b"From "):
            raise Refusal(REFUSED, f"{shown(self.source.path)}:{self.line}: no mbox: a line before the first From line")
        while self.held:
            self.drop(self.end_of_line(0))
            end = self.end_of_message()
            yield self.offset, self.line, without_last_line(bytes(self.held[:end]))
            self.drop(end)
