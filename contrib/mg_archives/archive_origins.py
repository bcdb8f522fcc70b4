"""What an archive knows of its documents beside the table: how a document is met again in its source, and in the set.

A line of `set.origins` belongs to the document of its number, with tabs between the columns:

    size, time   of the file that is the document, when it was read; the time in nanoseconds
    digest       of the document, where a file or a message without Message-ID is known by it
    words        words of the document by which a Boolean line of mg finds it; of a message that has a telling
                 Message-ID in it the words of this are taken, and the column is empty
"""

import dataclasses
import hashlib
import heapq
import os
import re

from mg_archives.archive_words import WORD
from mg_archives.maildirs import BOXES, unique_part
from mg_archives.tables import read_row

DIGIT = re.compile(rb"[0-9]")
# How much of a document is looked at for words, how many are kept of each kind, and how long they may be.
LOOKED_AT = 1 << 16
KEPT = 4
LONGEST = 40


@dataclasses.dataclass(slots=True)
class Origin:
    size: str = ""
    time: str = ""
    digest: str = ""
    words: bytes = b""

    def line(self):
        return b"\t".join([self.size.encode(), self.time.encode(), self.digest.encode(), self.words]) + b"\n"


def read_origin(line):
    size, time, digest, words = line.rstrip(b"\n").split(b"\t")
    return Origin(size.decode(), time.decode(), digest.decode(), words)


def digest_of(data):
    return hashlib.blake2b(data, digest_size=16).hexdigest()


def telling_words(data):
    """Words of a document that few others have together: its longest ones, and the longest with digits."""
    found = WORD.findall(data, 0, LOOKED_AT)
    if len(data) > LOOKED_AT and found:
        found.pop()
    words = {word.lower() for word in found if len(word) <= LONGEST}
    numbers = {word for word in words if DIGIT.search(word)}
    order = lambda word: (len(word), word)
    return b" ".join(heapq.nlargest(KEPT, words - numbers, order) + heapq.nlargest(KEPT, numbers, order))


def origin_of(data, row, state=None):
    """The origin of a document that is added. `state` is the size and time of the file that it is, where it is one."""
    identity = row.message_id.encode("utf-8", "surrogateescape")
    met = tells_apart(identity) and stands_alone(identity, data)
    origin = Origin(words=b"" if met else telling_words(data))
    if state is not None:
        origin.size, origin.time = map(str, state)
    if state is not None or not row.message_id:
        origin.digest = digest_of(data)
    return origin


def tells_apart(identity):
    """Whether a Message-ID has a word that few others have, and is no longer than a line of mg may be."""
    return len(identity) < 900 and any(len(word) >= 6 and DIGIT.search(word) for word in WORD.findall(identity))


def stands_alone(identity, data):
    """Whether these bytes stand in a document with no part of a word at either side."""
    place = data.find(identity)
    if place < 0:
        return False
    return not WORD.match(data[max(0, place - 1) : place]) and not WORD.match(data[place + len(identity) :][:1])


def finding_line(row, origin):
    """A Boolean line of mg that finds a document, and few others; none for a document without words."""
    words = origin.words or row.message_id.encode("utf-8", "surrogateescape")
    return b" & ".join(word.lower() for word in WORD.findall(words)) or None


def read_records(generation):
    """The row and the origin of each document, in the order of their numbers."""
    with open(generation.path(".table"), "rb") as rows, open(generation.path(".origins"), "rb") as origins:
        for row, origin in zip(rows, origins, strict=True):
            yield read_row(row), read_origin(origin)


def records_of(generation, numbers):
    """The row and the origin of each of these documents, by their numbers."""
    wanted, last = set(numbers), max(numbers, default=0)
    records = {}
    with open(generation.path(".table"), "rb") as rows, open(generation.path(".origins"), "rb") as origins:
        for number, (row, origin) in enumerate(zip(rows, origins), 1):
            if number in wanted:
                records[number] = read_row(row), read_origin(origin)
            if number >= last:
                break
    return records


def place_in_maildir(path):
    """The Maildir of a message's file and the part of its name that stays; none for a file elsewhere."""
    folder, name = os.path.split(path)
    maildir, box = os.path.split(folder)
    return (maildir, unique_part(name)) if box in BOXES else None


class Known:
    """What an archive has already: messages by their Message-ID or their text, files by their path, size and time."""

    def __init__(self, generation):
        self.identities = set()
        self.digests = set()
        self.files = {}
        self.places = set()
        self.documents = 0
        if generation is not None:
            for row, origin in read_records(generation):
                self.take(row, origin)

    def take(self, row, origin):
        """Counts a document as known."""
        self.documents += 1
        if row.message_id:
            self.identities.add(row.message_id)
        elif origin.digest and not origin.size:
            self.digests.add(origin.digest)
        if origin.size:
            self.files[row.path] = origin
        place = place_in_maildir(row.path)
        if place:
            self.places.add(place)

    def has_file(self, path, state):
        """Whether the file of this path has been added with this size and time."""
        origin = self.files.get(path)
        return origin is not None and (origin.size, origin.time) == tuple(map(str, state))

    def has(self, row, origin):
        """Whether a document that was read has been added: a message with its Message-ID or, without one, its text; a
        file with its path and text."""
        if row.message_id:
            return row.message_id in self.identities
        if origin.size:
            return row.path in self.files and self.files[row.path].digest == origin.digest
        return origin.digest in self.digests
