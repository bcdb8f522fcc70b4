"""What mg prints, with the names of the documents: each row, and the header of each shown document, gets the rest of its
line of the table. Every byte is copied, and whatever is complete is answered before more is read."""

import os
import re
import signal

from mg_archives.refusals import UNNAMED, Refusal, shown
from mg_archives.streams import write_whole
from mg_archives.tables import read_lines

BLOCK = 1 << 16
ROW = re.compile(rb"([0-9]+)(?: [0-9]+)?")
HEADER = re.compile(rb"-- ([0-9]+)(?: [0-9]+)?")
# How the last line of a shown document ends.
SHOWN_END = b"\x02\n"


class Naming:
    """Copies the replies to standard output. `rests` has the rest of each line, of the tables one after the other."""

    def __init__(self, rests):
        self.rests = rests
        self.shown = False
        self.unnamed = None

    def named(self, line, number):
        """A line with what the table says of the document."""
        place = int(number)
        if 1 <= place <= len(self.rests):
            return line + b"\t" + self.rests[place - 1]
        self.unnamed = self.unnamed or place
        return line

    def line(self, line):
        header = HEADER.fullmatch(line)
        row = header or ROW.fullmatch(line)
        self.shown = bool(header)
        return self.named(line, row[1]) if row else line

    def taken(self, held, ended):
        """What can be answered of the bytes that are held, which are taken away from there."""
        answers = []
        place = 0
        while place < len(held):
            if self.shown:
                end = held.find(SHOWN_END, place)
                # The last byte may be the first of the document's end.
                stop = end + len(SHOWN_END) if end >= 0 else len(held) - (not ended and held[-1:] == SHOWN_END[:1])
                answers.append(bytes(held[place:stop]))
                self.shown = end < 0
                place = stop
                if end < 0:
                    break
                continue
            end = held.find(b"\n", place)
            if end < 0:
                if ended:
                    answers.append(self.line(bytes(held[place:])))
                    place = len(held)
                break
            answers.append(self.line(bytes(held[place:end])) + b"\n")
            place = end + 1
        del held[:place]
        return b"".join(answers)


def rests_of(paths):
    """The rest of each line behind the number, of these tables in the order of the merge."""
    return [line.rstrip(b"\n").partition(b"\t")[2] for path in paths for line in read_lines(path)]


def name_rows(paths):
    """Names the replies on standard input by these tables."""
    # A reader that goes away ends this program as it ends others in a pipe.
    signal.signal(signal.SIGPIPE, signal.SIG_DFL)
    naming = Naming(rests_of(paths))
    held = bytearray()
    while block := os.read(0, BLOCK):
        held += block
        write_whole(1, naming.taken(held, False))
    write_whole(1, naming.taken(held, True))
    if naming.unnamed is not None:
        have = "they have" if len(paths) > 1 else "it has"
        raise Refusal(UNNAMED, f"{', '.join(map(shown, paths))}: {have} no document {naming.unnamed}")
