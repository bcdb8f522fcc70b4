"""Sets of files that the reference makes, decoded by the program.

The reference (`reference/`) makes every part of a set from its definition and shares no code with
the program.
"""

import pathlib
import sys

sys.path.insert(0, str(pathlib.Path(__file__).parent / "reference"))

from kinds import Draws, cases
from parts import ENDINGS, build
from standing import write_parts
from texts import Collection

BUDGET = 16_777_216
K = b"the cat sat\n\x02the dog\n\x02Cat, cat & dog!\n\x02"


def put_set(suite, name, collection, version):
    """The set of a collection under a name."""
    write_parts(suite.folder / name, build(Collection(collection), BUDGET, version))


def remove(suite, name):
    for ending in ENDINGS:
        (suite.folder / f"{name}.{ending}").unlink(missing_ok=True)


def answered(suite, tool, rows):
    """Sessions of a tool over sets that the program builds: a collection, lines, and what is printed."""
    for collection, lines, wanted in rows:
        suite.file("text", collection)
        suite.run(["build", "text", "set"])
        suite.check(f"{tool} of {lines[:30]!r}", suite.run([tool, "set"], lines + b"\n"), (0, wanted, b""))
        remove(suite, "set")
    suite.check(f"{tool} of no set", suite.run([tool, "none"], b"cat\n"), (5, b"", b"mg: nothing is built under this name\n"))


def compared(suite, tool, lines_of, session):
    """Drawn lines over each kind of collection, against what the reference prints."""
    for seed, (name, collection, _) in enumerate(cases(), 1):
        suite.file("text", collection)
        suite.run(["build", "text", "set", "--budget", "4096"])
        lines = lines_of(Draws(seed), collection)
        wanted = session(Collection(collection), lines)
        suite.check(f"{name}: {tool}", suite.run([tool, "set"], lines), (0, wanted, b""))
        remove(suite, "set")


def decoded(suite):
    """Each kind of collection, and small ones, in both versions."""
    small = [
        ("nothing", b""), ("three documents", K), ("an open end", K[:-1]), ("one word four times", b"a a a a "),
        ("two empty documents", b"\x02\x02"), ("an empty document", b"\x02"), ("256 letters", b"a" * 256),
        ("300 blanks", b" " * 300), ("200 documents of one word", b"x\x02" * 200),
    ]
    for name, collection in small + [(name, collection) for name, collection, _ in cases()]:
        for version in (1, 2):
            put_set(suite, "set", collection, version)
            got = suite.run(["decode", "set"])
            suite.check(f"{name}: decode of version {version}", got, (0, collection, b""))
        remove(suite, "set")


def damaged(suite):
    """No set, a head that is cut, a text that is cut, an output that takes nothing."""
    unbuilt = (5, b"", b"mg: nothing is built under this name\n")
    suite.check("decode of nothing", suite.run(["decode", "set"]), unbuilt)
    suite.file("set.head", b"")
    suite.check("decode of an empty head", suite.run(["decode", "set"]), unbuilt)
    suite.file("set.head", b"MGROWv2\n\0\0")
    cut = (6, b"", b"mg: damaged: part head at 0: found 10, wanted 64 to 64\n")
    suite.check("decode of a head of ten bytes", suite.run(["decode", "set"]), cut)
    put_set(suite, "set", b"a a a a ", 2)
    suite.file("set.text", b"\xc8")
    short = (6, b"", b"mg: damaged: part text at 0: found 1, wanted 2 to 2\n")
    suite.check("decode of a text that is cut", suite.run(["decode", "set"]), short)
    put_set(suite, "set", K, 2)
    with open("/dev/full", "wb") as full:
        unwritten = (4, None, b"mg: the output could not be written\n")
        suite.check("a full output of decode", suite.run(["decode", "set"], stdout=full), unwritten)
    (suite.folder / "parts").mkdir(exist_ok=True)
    (suite.folder / "parts" / "set.head").mkdir(exist_ok=True)
    failed = (2, b"", b"mg: the store failed\n")
    suite.check("a folder in place of a head", suite.run(["decode", "parts/set"]), failed)
    remove(suite, "set")


PARTS = [decoded, damaged]
