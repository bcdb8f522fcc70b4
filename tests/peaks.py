"""Peaks of memory over hostile sets: what a head tells, or a code that means far more bytes than it has, takes no memory.

Each tool that reads a set runs over each hostile set. It ends by itself within some seconds with a status of its own, and takes
at most 40 megabytes more than over a small sound set, and some bytes for each byte of the set. A merge may take the pool that
the first head tells, since the new set is to have as many occurrences to a run.
"""

import dataclasses
import pathlib
import re
import sys

sys.path.insert(0, str(pathlib.Path(__file__).parent / "reference"))

from codes import filled, gamma
from damages import LINES, MERGE_LINES, Measured, pool_of
from files import BUDGET, K, remove
from parts import CAP_RANGE, build, head_bytes, numbers, read_head
from standing import write_parts
from texts import Collection

MORE = 40 << 20
# How many bytes of memory each byte of a set's files explains.
EACH = 16
LONG = b"a" * 255
# A code of so many pairs and 2 bits for each take 262,149 bytes; the text that they mean has 534,773,250.
PAIRS = (1 << 20) - 1
ASKED = {
    "query": b"a\n!a\n.set mode text\n.set maxdocs 3\n%s\n!zebra\n.set query ranked\n%s\n" % (LONG, LONG),
    "phrase": b"%s\n%s %s\nthe cat\ncat\n" % (LONG, LONG, LONG),
    "wild": b"a*\n*\n",
}
TOOLS = [["decode", "set"], ["query", "set"], ["phrase", "set"], ["wild", "set"], ["check", "set"], ["migrate", "set", "new"], ["merge", "set", "set", "new"]]


def with_head(parts, version, **fields):
    """The parts with other numbers in their head."""
    head, _ = read_head(parts["head"])
    return parts | {"head": head_bytes(dataclasses.replace(head, **fields), version)}


def set_of(data, version=2):
    return build(Collection(data), BUDGET, version)


def long_text(documents, version=2, **fields):
    """A set of one word and one other of 255 bytes each, a bit a piece, whose text means a thousand times what its head tells."""
    text = filled(gamma(PAIRS + 1) + "0" * (2 * PAIRS))
    sound = set_of((LONG + b" " * 255 + b"\x02") * documents, version)
    # Each document begins where the first one does, but for the end.
    places = numbers([0] * documents + [len(text)], 4 if version == 1 else 8)
    return with_head(sound | {"text": text, "places": places}, version, text_bytes=len(text), **fields)


def hostile():
    """The sets, each with its name."""
    rows = [("a sound set", set_of(K))]
    for version in (1, 2):
        rows += [
            (f"the greatest cap, version {version}", with_head(set_of(K, version), version, cap=CAP_RANGE[1])),
            (f"a text that means 534,773,250 bytes, version {version}", long_text(1, version)),
            (f"three documents with the same long text, version {version}", long_text(3, version)),
            (f"as many words as there may be, version {version}", with_head(set_of(K, version), version, words=1 << 20, terms=1 << 20)),
            (f"as many documents as there may be, version {version}", with_head(set_of(K, version), version, documents=1 << 20)),
            (f"as many bytes as there may be, version {version}", with_head(set_of(K, version), version, collection=1 << 28)),
        ]
    sound = set_of(K)
    far = bytearray(sound["lex"])
    # The entry of cat: how many documents it is in.
    far[4:8] = b"\x7f\xff\xff\xff"
    rows += [
        ("a term in more documents than there are", sound | {"lex": bytes(far)}),
        ("more occurrences than there are", with_head(sound, 2, occurrences=(1 << 32) - 1, collection=(1 << 32) - 1)),
        ("more runs than there are", with_head(sound, 2, runs=(1 << 32) - 1)),
        ("places that fall", sound | {"places": numbers([8, 5, 3, 8], 8)}),
        ("places far behind the text", sound | {"places": numbers([0, 1 << 40, 1 << 41, 8], 8)}),
    ]
    return rows


def fair(words, status, line):
    """Whether a tool may end so."""
    lines = MERGE_LINES if words[0] == "merge" else LINES
    return status in lines and re.fullmatch(lines[status], line) is not None


def peaks(suite):
    """Each tool over each hostile set."""
    measured = Measured(suite, "/dev/null")
    sound, worst = {}, 0
    for name, parts in hostile():
        write_parts(suite.folder / "set", parts)
        explained = EACH * sum(map(len, parts.values()))
        for words in TOOLS:
            suite.file("asked", ASKED.get(words[0], b""))
            status, line, peak = measured.run(words)
            suite.check(f"{name}: {words[0]}", fair(words, status, line) or (status, line), True)
            most = sound.setdefault(words[0], peak) + MORE + explained
            if words[0] == "merge":
                most += pool_of(parts["head"])
            worst = max(worst, peak - most + MORE)
            suite.check(f"{name}: memory of {words[0]}", peak <= most or peak, True)
    measured.end()
    print(f"peaks: at most {worst // 1024} kilobytes beside what a set explains")
    for base in ("set", "new"):
        remove(suite, base)


# How many documents of 511 bytes a head tells, and what is told of a first document that means 534,773,250: of the 510 bytes of each
# pair the first 255 beyond what is told are refused.
PRINTED = [(1, "found 765, wanted 0 to 511"), (40, "found 20655, wanted 0 to 20440")]


def printed(suite):
    """`decode` prints no more than the head tells, however much the text means, and what it prints are the first bytes of that."""
    for version in (1, 2):
        for documents, line in PRINTED:
            write_parts(suite.folder / "set", long_text(documents, version))
            status, out, told = suite.run(["decode", "set"])
            name = f"{documents} documents with the same long text, version {version}: decode"
            suite.check(name, (status, told), (6, f"mg: damaged: part text at 0: {line}\n".encode()))
            meant = (LONG + b" " * 255) * documents
            suite.check(f"{name} prints no more", meant.startswith(out) or len(out), True)
    remove(suite, "set")


PARTS = [peaks, printed]
