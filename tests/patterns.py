"""Sessions of patterns over sets that the program builds, against the reference."""

import pathlib
import sys

sys.path.insert(0, str(pathlib.Path(__file__).parent / "reference"))

from files import K, answered, compared, put_set, remove
from kinds import words_of
from sessions import wild_session

CAT = b"+ cat 2\n1\n3\n= 2\n"
# Terms at the ends of which both sides of a pattern may stand, and bytes beyond ASCII.
ENDS = b"a aa aba abba cat catcat \xc3\xa9t\xc3\xa9 zoo\x02cat A\x02"
ROWS = [
    (K, b"*at", b"+ cat 2\n+ sat 1\n1\n3\n= 2\n"),
    (K, b"d*g", b"+ dog 2\n2\n3\n= 2\n"),
    (K, b"C*", CAT),
    (K, b"ca*T", CAT),
    (K, b" \t*at\t ", b"+ cat 2\n+ sat 1\n1\n3\n= 2\n"),
    (K, b"*", b"+ cat 2\n+ dog 2\n+ sat 1\n+ the 2\n1\n2\n3\n= 3\n"),
    (K, b"c*cat", b"= 0\n"),
    (K, b"zz*", b"= 0\n"),
    (K, b"cat", b"? bad pattern at 3\n"),
    (K, b"c*a*", b"? bad pattern at 3\n"),
    (K, b".set x", b"? bad pattern at 0\n"),
    (K, b"  c t*", b"? bad pattern at 3\n"),
    (K, b" \t ", b""),
    (K, b".quit \ncat*", b""),
    (K, b" .quit\ncat*", b"? bad pattern at 1\n" + CAT),
    (K, b"x" * 1025, b"? line too long\n"),
    (K, b"x" * 1023 + b"*", b"= 0\n"),
    (K, b"cat*\r\nzz*", CAT + b"= 0\n"),
    (ENDS, b"a*a", b"+ aa 1\n+ aba 1\n+ abba 1\n1\n= 1\n"),
    (ENDS, b"ab*ba", b"+ abba 1\n1\n= 1\n"),
    (ENDS, b"cat*cat", b"+ catcat 1\n1\n= 1\n"),
    (ENDS, b"\xc3\xa9*\xa9", b"+ \xc3\xa9t\xc3\xa9 1\n1\n= 1\n"),
    (ENDS, b"A*", b"+ a 2\n+ aa 1\n+ aba 1\n+ abba 1\n1\n2\n= 2\n"),
    (b"b" + b"a" * 254 + b" b" + b"a" * 300, b"b" + b"a" * 253 + b"*", b"+ b" + b"a" * 254 + b" 1\n1\n= 1\n"),
    (b"", b"*", b"= 0\n"),
    (b"\x02\x02", b"*\n, ,", b"= 0\n? bad pattern at 0\n"),
]


def rows(suite):
    """Patterns over small sets, worked by hand."""
    answered(suite, "wild", ROWS)


def drawn(draws, collection, count=60):
    """Lines with a word of the collection of which a part, from none to all of it, is a star; and some that are no patterns."""
    words = words_of(collection)
    lines = []
    for _ in range(count):
        word = draws.one_of(words)
        start = draws.below(len(word) + 1)
        end = start + draws.below(len(word) - start + 1)
        line = word[:start] + b"*" + word[end:]
        kind = draws.below(12)
        if kind == 0:
            line = line.upper()
        elif kind == 1:
            line = line.replace(b"*", b"")
        elif kind == 2:
            line += draws.one_of([b"*", b"!", b" x", b"\t"])
        lines.append(line)
    return b"\n".join(lines)


def kinds(suite):
    """Patterns over each kind of collection."""
    compared(suite, "wild", drawn, wild_session)


def too_many(suite):
    """A lexicon with more rotations than are held: it is told before the input is read and before room is taken."""
    put_set(suite, "set", K, 2)
    terms = 2**19 + 1
    head = bytearray((suite.folder / "set.head").read_bytes())
    for field in (12, 20):
        head[field : field + 4] = terms.to_bytes(4, "big")
    suite.file("set.head", bytes(head))
    letters = b"a" * 252
    numbers = [bytes([97 + n // 2**14, 97 + n // 2**7 % 128, 97 + n % 128]) for n in range(terms)]
    lex = bytearray()
    for number, name in enumerate(numbers):
        if number % 4 == 0:
            lex += bytes([255]) + letters + name
        else:
            shared = next(at for at in range(3) if name[at] != numbers[number - 1][at])
            lex += bytes([252 + shared, 3 - shared]) + name[shared:]
        lex += bytes(16)
    suite.file("set.lex", bytes(lex))
    got = suite.run(["wild", "set"], b"*\n")
    suite.check("too many rotations", got, (17, b"", b"mg: the terms have 134217984 rotations, more than 134217728\n"))
    remove(suite, "set")


PARTS = [rows, kinds, too_many]
