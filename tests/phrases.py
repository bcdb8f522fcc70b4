"""Sessions of phrases over sets that the program builds, against the reference."""

import pathlib
import sys

sys.path.insert(0, str(pathlib.Path(__file__).parent / "reference"))

from files import K, answered, compared
from kinds import words_of
from sessions import phrase_session

ROWS = [
    (K, b"the cat", b"1 1\n= 1\n"),
    (K, b"Cat, CAT", b"3 1\n= 1\n"),
    (K, b"cat", b"1 1\n3 2\n= 2\n"),
    (K, b"cat dog", b"3 1\n= 1\n"),
    (K, b"dog cat", b"= 0\n"),
    (K, b"zebra cat", b"= 0\n"),
    (K, b", ,", b"= 0\n"),
    (K, b" \t ", b""),
    (K, b".set mode text", b"= 0\n"),
    (K, b".quit\ncat", b""),
    (K, b"sat the", b"= 0\n"),
    (b"b c a\x02b c\x02", b"c b", b"= 0\n"),
    (b"a a a a ", b"a a", b"1 3\n= 1\n"),
    (b"a b a b a", b"a b a", b"1 2\n= 1\n"),
    (b"a a a b", b"a a b", b"1 1\n= 1\n"),
    ("CAFé Noir".encode(), "café noir".encode(), b"1 1\n= 1\n"),
    (b"a " * 5000, b"A a a", b"1 4998\n= 1\n"),
    (b"x" + b" " * 300 + b"y", b"x y", b"1 1\n= 1\n"),
    (b"b" + b"a" * 256 + b" c", b"b" + b"a" * 254 + b" aa c", b"1 1\n= 1\n"),
    (b"b" + b"a" * 256 + b" c", b"b" + b"a" * 254 + b" c", b"= 0\n"),
    (b"a" * 510 + b" c", b"a" * 255 + b" " + b"a" * 255 + b" c", b"1 1\n= 1\n"),
    (b"a a a a ", (b"a " * 64)[:-1], b"= 0\n"),
    (b"a " * 65, (b"a " * 64)[:-1], b"1 2\n= 1\n"),
    (b"a a a a ", b"a " * 64 + b"a", b"? too many words at 128\n"),
    (b"a a a a ", b"a" * 256, b"? word too long at 0\n"),
    (b"a a a a ", b"a" * 1025, b"? line too long\n"),
]


def rows(suite):
    """Phrases over small sets, worked by hand."""
    answered(suite, "phrase", ROWS)


def spoken(draws, collection, count=60):
    """Lines of one to four words that stand together in a document, or were drawn at random."""
    documents = [words for words in (d.split() for d in collection.split(b"\x02")) if words]
    drawn = words_of(collection)
    lines = []
    for _ in range(count):
        length = 1 + draws.below(4)
        if documents and draws.below(4):
            words = draws.one_of(documents)
            start = draws.below(len(words))
            lines.append(b" ".join(words[start : start + length]))
        else:
            lines.append(b", ".join(draws.one_of(drawn) for _ in range(length)))
    return b"\n".join(line.replace(b"\n", b" ") for line in lines)


def kinds(suite):
    """Phrases over each kind of collection."""
    compared(suite, "phrase", spoken, phrase_session)


PARTS = [rows, kinds]
