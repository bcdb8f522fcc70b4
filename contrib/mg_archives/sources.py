"""Files, pipes and compressed files that documents come from."""

import bz2
import gzip
import io
import lzma
import os
import re
import zlib

STANDARD_INPUT = b"-"
# What names of open files begin with, which another process doesn't have.
PIPES = (b"/dev/fd/", b"/dev/stdin", b"/proc/self/fd/")
BLOCK = 1 << 20
# How a compressed file begins, how its name ends, and what reads it.
KINDS = [
    (re.compile(rb"\x1f\x8b\x08"), b".gz", gzip.open),
    (re.compile(rb"BZh[1-9](?:1AY&SY|\x17rE8P\x90)"), b".bz2", bz2.open),
    (re.compile(rb"\xfd7zXZ\x00"), b".xz", lzma.open),
]
LONGEST = 10
ENDINGS = tuple(ending for _, ending, _ in KINDS)


class Damaged(Exception):
    """A compressed file ends early or holds what it cannot."""


def opener_of(beginning):
    """What reads a file with this beginning; none where it is not compressed."""
    return next((opener for magic, _, opener in KINDS if magic.match(beginning)), None)


class Rejoined(io.RawIOBase):
    """A pipe whose first bytes were read already."""

    def __init__(self, beginning, file):
        self.beginning = beginning
        self.file = file

    def readable(self):
        return True

    def readinto(self, room):
        taken = self.beginning[: len(room)] or self.file.read1(len(room))
        self.beginning = self.beginning[len(taken) :]
        room[: len(taken)] = taken
        return len(taken)


class Source:
    """A file, a pipe or standard input, which is read in blocks and uncompressed."""

    def __init__(self, path):
        self.path = path
        self.file = os.fdopen(os.dup(0), "rb", BLOCK) if path == STANDARD_INPUT else open(path, "rb", BLOCK)
        beginning = self.file.read(LONGEST)
        if self.file.seekable():
            self.file.seek(-len(beginning), os.SEEK_CUR)
        else:
            self.file = io.BufferedReader(Rejoined(beginning, self.file), BLOCK)
        opener = opener_of(beginning)
        self.compressed = opener is not None
        if opener:
            self.file = opener(self.file)

    def read(self, size=-1):
        """At most so many bytes; none at the end."""
        if not self.compressed:
            return self.file.read(size)
        return whole(lambda: self.file.read(size))

    def close(self):
        self.file.close()

    def __enter__(self):
        return self

    def __exit__(self, *_):
        self.close()


def whole(read):
    """What is read of a compressed file; `Damaged` where it is not whole, an OSError where the system failed."""
    try:
        return read()
    except (EOFError, zlib.error, lzma.LZMAError) as error:
        raise Damaged("it is a damaged compressed file") from error
    except OSError as error:
        # The library tells a wrong check sum as an error of the system without a number.
        if error.errno is None:
            raise Damaged("it is a damaged compressed file") from error
        raise


def read_file(path):
    """All bytes of a file, with as few calls as may be."""
    handle = os.open(path, os.O_RDONLY | os.O_CLOEXEC) if path != STANDARD_INPUT else os.dup(0)
    try:
        size = os.fstat(handle).st_size
        pieces = [os.read(handle, size + 1)]
        while pieces[-1] and len(pieces[0]) != size:
            pieces.append(os.read(handle, BLOCK))
        return pieces[0] if len(pieces) == 1 else b"".join(pieces)
    finally:
        os.close(handle)


def uncompressed(data):
    """What a file's bytes stand for; the same bytes where they are not compressed."""
    opener = opener_of(data[:LONGEST])
    return whole(lambda: opener(io.BytesIO(data)).read()) if opener else data
