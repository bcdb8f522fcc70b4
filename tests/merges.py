"""Sets that the program makes of two sets: their parts, their summaries, and what is refused.

The reference (`reference/`) decides of every part whether it is that of both collections in one.
"""

import pathlib
import sys

sys.path.insert(0, str(pathlib.Path(__file__).parent / "reference"))

from files import BUDGET, K, put_set, remove
from kinds import cases
from parts import Damaged, summary
from standing import check, read_parts
from texts import Collection

A = b"a a a a "
ROWS = b"documents 4\nwords 6\nothers 5\nterms 5\noccurrences 12\nruns 1\npool 144 of 16777212\n"
SAME = (16, b"", b"mg: both names are the same\n")
# Where a head has the bytes of its collection, in eight bytes, and the most that a collection may have.
BYTES_AT = 32
MOST = 2**32 - 1


def joined(first, second):
    """The bytes of both, with the one that closes an open last document of the first."""
    return first + (b"\x02" if first and not first.endswith(b"\x02") else b"") + second


def merged(suite, name, first, second, versions=(2, 2), budget=BUDGET):
    """Merges two sets, and compares all that is printed and left with the reference."""
    put_set(suite, "a", first, versions[0])
    put_set(suite, "b", second, versions[1])
    whole = joined(first, second)
    # The pool has as many entries again as the first set's, so at least 4,096 bytes.
    pool = max(4096, budget // 12 * 12)
    suite.check(f"{name}: summary", suite.run(["merge", "a", "b", "set"]), (0, summary(Collection(whole), pool), b""))
    try:
        stands = check(read_parts(suite.folder / "set")).data == whole
    except Damaged as damaged:
        stands = str(damaged)
    suite.check(f"{name}: the set stands", stands, True)
    suite.check(f"{name}: decoded", suite.run(["decode", "set"]), (0, whole, b""))
    suite.check(f"{name}: the first set decoded", suite.run(["decode", "a"]), (0, first, b""))
    for base in ("a", "b", "set"):
        remove(suite, base)


def rows(suite):
    """Two small sets, worked by hand."""
    put_set(suite, "j", A, 1)
    put_set(suite, "k", K, 2)
    suite.check("a merge", suite.run(["merge", "j", "k", "n"]), (0, ROWS, b""))
    suite.check("a merge decoded", suite.run(["decode", "n"]), (0, A + b"\x02" + K, b""))
    suite.check("a merge asked", suite.run(["query", "n"], b"cat\n"), (0, b"2\n4\n= 2\n", b""))
    suite.check("a merge the other way", suite.run(["merge", "k", "j", "n"])[0], 0)
    suite.check("a merge with an open end", suite.run(["decode", "n"]), (0, K + A, b""))
    suite.check("a set with itself", suite.run(["merge", "k", "k", "n"])[0], 0)
    suite.check("a set twice", suite.run(["decode", "n"]), (0, K + K, b""))
    suite.check("a merge into the first", suite.run(["merge", "k", "j", "k"]), SAME)
    suite.check("a merge into the second", suite.run(["merge", "j", "k", "k"]), SAME)
    missing = (5, b"", b"mg: nothing is built under this name\n")
    suite.check("a merge with nothing", suite.run(["merge", "k", "none", "n"]), missing)
    suite.check("a merge of nothing", suite.run(["merge", "none", "k", "n"]), missing)
    suite.check("what was there is left", suite.run(["decode", "n"]), (0, K + K, b""))
    for base in ("j", "k", "n"):
        remove(suite, base)


def told_size(suite, name, size):
    """Has the head of a set tell so many bytes of its collection."""
    file = suite.folder / f"{name}.head"
    head = file.read_bytes()
    file.write_bytes(head[:BYTES_AT] + size.to_bytes(8, "big") + head[BYTES_AT + 8 :])


def too_large(suite):
    """What the heads tell is added up, and refused before anything is written."""
    put_set(suite, "b", K, 2)
    large = (8, b"", b"mg: the collection has 4294967296 bytes, more than 4294967295\n")
    for name, first, told, is_refused in [
        ("as many bytes as there may be", K, MOST - len(K), False),
        ("one byte more", K, MOST - len(K) + 1, True),
        ("an open end, which is closed", A, MOST - len(K) - 1, False),
        ("an open end, which is closed, and one byte more", A, MOST - len(K), True),
    ]:
        put_set(suite, "a", first, 2)
        put_set(suite, "n", A, 2)
        told_size(suite, "a", told)
        got = suite.run(["merge", "a", "b", "n"])
        suite.check(f"a merge of {name}", got == large, is_refused)
        if is_refused:
            suite.check(f"a merge of {name}: what was there is left", suite.run(["decode", "n"]), (0, A, b""))
    for base in ("a", "b", "n"):
        remove(suite, base)


def kinds(suite):
    """Each kind of collection with the one before it, in both versions."""
    before = b""
    for number, (name, collection, _) in enumerate(cases()):
        merged(suite, f"{name} behind another", before, collection, (1 + number % 2, 2 - number % 2))
        before = collection
    merged(suite, "both of version 1", K, A, (1, 1))
    merged(suite, "nothing with nothing", b"", b"")
    merged(suite, "nothing behind an open end", A, b"")


def damaged(suite):
    """A set that stands for no collection and is decoded all the same: a merge makes the set of these bytes.

    So it is where a word has other bytes than words have, or pieces come as in no document.
    """
    put_set(suite, "b", K, 2)
    first = b"ab cd, ab\x02cd\x02\x02" + b"x" * 256 + b" y\x02ab"
    tried = 0
    for ending in ("words", "nonwords", "text"):
        put_set(suite, "a", first, 2)
        file = suite.folder / f"a.{ending}"
        sound = file.read_bytes()
        for place in range(8 * len(sound)):
            wrong = bytearray(sound)
            wrong[place // 8] ^= 1 << place % 8
            file.write_bytes(bytes(wrong))
            status, data, _ = suite.run(["decode", "a"])
            if status != 0 or data == first or len(data) != len(first):
                continue
            tried += 1
            name = f"a merge behind bit {place} of {ending}"
            whole = joined(data, K)
            suite.check(name, suite.run(["merge", "a", "b", "n"])[0], 0)
            suite.check(f"{name}: decoded", suite.run(["decode", "n"]), (0, whole, b""))
            suite.check(f"{name}: the set stands", check(read_parts(suite.folder / "n")).data == whole, True)
    suite.check("damaged sets were merged", tried > 20, True)
    for base in ("a", "b", "n"):
        remove(suite, base)


def three(suite):
    """Three sets merged from the left and from the right stand for the same."""
    for name, collections in [
        ("small sets", [A, K, b"x\x02\x02y"]),
        ("larger sets", [collection for _, collection, _ in list(cases())[:3]]),
    ]:
        for base, collection in zip("abc", collections):
            put_set(suite, base, collection, 2)
        for words in (["a", "b", "ab"], ["ab", "c", "left"], ["b", "c", "bc"], ["a", "bc", "right"]):
            suite.check(f"{name}: merge {words}", suite.run(["merge", *words])[0], 0)
        parts = [read_parts(suite.folder / base) for base in ("left", "right")]
        suite.check(f"{name}: three merged from both sides", parts[0] == parts[1], True)
        whole = joined(joined(collections[0], collections[1]), collections[2])
        suite.check(f"{name}: three decoded", suite.run(["decode", "right"]), (0, whole, b""))
        for base in ("a", "b", "c", "ab", "bc", "left", "right"):
            remove(suite, base)


def built(suite, name, collection):
    suite.file("text", collection)
    suite.check(f"a half is built as {name}", suite.run(["build", "text", name])[0], 0)


def limits(suite):
    """Halves that are within the limits, and together at them or one beyond; minutes, and gigabytes of files."""
    half = 1 << 23
    built(suite, "a", b"\x02" * half)
    for count, status, line in [(half, 0, b""), (half + 1, 9, b"mg: more than 16777216 documents\n")]:
        built(suite, "b", b"\x02" * count)
        got = suite.run(["merge", "a", "b", "n"])
        suite.check(f"{half} documents and {count}", (got[0], got[2]), (status, line))
    for base in ("a", "b", "n"):
        remove(suite, base)
    half = 1 << 21
    words = b"".join(b"%06x " % number for number in range(2 * half))
    built(suite, "a", words[: 7 * half] + b"\x02")
    for more, status, line in [(b"", 0, b""), (b"g", 10, b"mg: more than 4194304 distinct words\n")]:
        built(suite, "b", words[7 * half :] + more)
        got = suite.run(["merge", "a", "b", "n"])
        suite.check(f"two million words and as many others, and {more}", (got[0], got[2]), (status, line))
    for base in ("a", "b", "n"):
        remove(suite, base)


PARTS = [rows, too_large, kinds, damaged, three]
SLOW = [limits]
