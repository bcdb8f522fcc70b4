"""`check` over sets that stand and over changed ones.

The reference (`reference/`) decides of each set whether it stands for a collection: it decodes the text,
makes every part of what came out anew, and compares them. It shares no code with the program.
"""

import pathlib
import re
import sys

sys.path.insert(0, str(pathlib.Path(__file__).parent / "reference"))

from damages import LINES, Measured, damaged
from files import BUDGET, K, put_set, remove
from kinds import Draws, cases
from parts import ENDINGS, Damaged, all_parts, build, models
from standing import check, write_parts
from texts import Collection

EIGHT = b"a a a a "
# The parts of a set, those of merges aside.
PARTS_OF_A_SET = ENDINGS[:11]
# Where a head of each version has how many occurrences a run takes at most.
CAP_AT = {1: 24, 2: 24}
DAMAGES = 500
# Documents of a set whose lists are made anew some at a time, and how many different words they are drawn of.
DEEP_DOCUMENTS = 40_000
DEEP_WORDS = 40_000
# Places of a part at which one byte is changed, in thousandths of its bytes; pages of this size are compared.
DEEP_AT = (0, 300, 600, 999)
PAGE = 4096
# What a check of a small set takes at most, however large the pool of the build was.
LEAST_PEAK = 40 << 20
# Lengths of codewords for the others of K, in the order of their bytes: a tie of Huffman's method, and a good code that costs more.
OTHER_LENGTHS = {"of the same cost": (2, 1, 4, 4, 3), "of a greater cost": (1, 2, 3, 4, 4)}


def line_of(data):
    """The line of a set that stands for these bytes."""
    return b"stands %d documents %d bytes\n" % (len(Collection(data)), len(data))


def verdict(parts):
    """The status and the output of a check, by the reference."""
    if not parts["head"]:
        return 5, b""
    try:
        return 0, line_of(check(parts).data)
    except (Damaged, IndexError, ValueError, OverflowError):
        return 6, b""


def compare(suite, name, parts):
    """Checks a set, and compares the verdict with the reference's."""
    write_parts(suite.folder / "set", parts)
    status, out, line = suite.run(["check", "set"])
    suite.check(name, (status, out), verdict(parts))
    suite.check(f"{name}: the line of status {status}", re.fullmatch(LINES.get(status, b"no line"), line) is not None, True)


def rows(suite):
    """Sets of both versions that stand, and none."""
    small = [
        ("nothing", b""), ("three documents", K), ("an open end", K[:-1]), ("one word four times", EIGHT),
        ("two empty documents", b"\x02\x02"), ("an empty document", b"\x02"), ("256 letters", b"a" * 256),
        ("300 blanks", b" " * 300), ("200 documents of one word", b"x\x02" * 200),
    ]
    for name, data in small + [(name, data) for name, data, _ in cases()]:
        for version in (1, 2):
            put_set(suite, "set", data, version)
            suite.check(f"{name}: check of version {version}", suite.run(["check", "set"]), (0, line_of(data), b""))
        remove(suite, "set")
    unbuilt = (5, b"", b"mg: nothing is built under this name\n")
    suite.check("check of nothing", suite.run(["check", "set"]), unbuilt)
    suite.file("set.head", b"")
    suite.check("check of an empty head", suite.run(["check", "set"]), unbuilt)
    remove(suite, "set")


def each_bit(suite):
    """Every change of one bit in every part of small sets."""
    for data in (EIGHT, K):
        for version in (1, 2):
            sound = build(Collection(data), BUDGET, version)
            for ending in PARTS_OF_A_SET:
                for bit in range(8 * len(sound[ending])):
                    content = bytearray(sound[ending])
                    content[bit // 8] ^= 128 >> bit % 8
                    compare(suite, f"version {version} of {data[:8]!r}: bit {bit} of {ending}", sound | {ending: bytes(content)})
    remove(suite, "set")


def with_bytes(parts, ending, at, content):
    """The parts with other bytes from a place of one of them on."""
    old = parts[ending]
    return parts | {ending: old[:at] + content + old[at + len(content) :]}


def changed_sets(suite):
    """A byte behind a part, parts of another set, other numbers that mean the same."""
    for version in (1, 2):
        sound = build(Collection(K), BUDGET, version)
        other = build(Collection(K.replace(b"sat", b"mat")), BUDGET, version)
        for ending in PARTS_OF_A_SET:
            compare(suite, f"a byte behind {ending}", sound | {ending: sound[ending] + b"\0"})
            compare(suite, f"{ending} without its last byte", sound | {ending: sound[ending][:-1]})
            compare(suite, f"{ending} of another collection", sound | {ending: other[ending]})
        words, others = models(Collection(K))
        for name, lengths in OTHER_LENGTHS.items():
            parts = all_parts(Collection(K), BUDGET // 12, version, words, dict(zip(others, lengths)))
            compare(suite, f"lengths {name}", parts)
        for cap in (341, 342, 4096, 89_478_485, 340, 89_478_486):
            compare(suite, f"runs of at most {cap}", with_bytes(sound, "head", CAP_AT[version], cap.to_bytes(4, "big")))
    eight = build(Collection(EIGHT), BUDGET, 2)
    compare(suite, "another weight", eight | {"weights": b"\0\0\x03\x01"})
    compare(suite, "another bit behind the text", eight | {"text": b"\xc8\x01"})
    remove(suite, "set")


def several_blocks(suite):
    """Damages of a set whose lists have several blocks: the verdict is the reference's."""
    draws = Draws(suite.seed)
    words = [bytes(draws.one_of(b"aeiouklmnprst") for _ in range(1 + draws.below(3))) for _ in range(40)]
    data = b"".join(b" ".join(draws.one_of(words) for _ in range(1 + draws.below(12))) + b".\n\x02" for _ in range(60)) + b"x\x02" * 140
    print(f"checks: seed {suite.seed}")
    for version in (1, 2):
        sound = build(Collection(data), 4096, version)
        compare(suite, f"200 documents in version {version}", sound)
        for number in range(DAMAGES // 2):
            ending = draws.one_of([*PARTS_OF_A_SET, "post", "skip", "run"])
            what, content = damaged(draws, sound[ending])
            name = f"damage {number} of seed {suite.seed}: version {version}, {ending}: {what}"
            compare(suite, name, sound | {ending: content or b""})
    remove(suite, "set")


def deep_places(suite):
    """One other byte deep in a part of many pages is told at its place, and a lexicon that is cut at the page of its end."""
    draws = Draws(suite.seed)
    number = DEEP_WORDS
    lines = [b" ".join(b"w%05x" % (draws.below(number) * draws.below(number) // number) for _ in range(6)) for _ in range(DEEP_DOCUMENTS)]
    suite.file("text", b"\n\x02".join(lines))
    suite.run(["build", "text", "set"])
    suite.check("a deep set", suite.run(["check", "set"])[0], 0)
    for ending in ("post", "skip", "lex", "lexat"):
        path = suite.folder / f"set.{ending}"
        sound = path.read_bytes()
        suite.check(f"{ending} has many pages", len(sound) > 6 * PAGE or len(sound), True)
        for at in [len(sound) * thousandths // 1000 for thousandths in DEEP_AT] + [len(sound) - 1]:
            byte, other = sound[at], sound[at] ^ 1 << draws.below(8)
            path.write_bytes(sound[:at] + bytes([other]) + sound[at + 1 :])
            line = f"mg: damaged: part {ending} at {at}: found {other}, wanted {byte} to {byte}\n"
            suite.check(f"byte {at} of {ending}", suite.run(["check", "set"]), (6, b"", line.encode()))
        for size in (0, 3 * PAGE, 5 * PAGE + 1, len(sound) - 1) if ending.startswith("lex") else ():
            path.write_bytes(sound[:size])
            page = size // PAGE * PAGE
            wanted = min(PAGE, len(sound) - page)
            line = f"mg: damaged: part {ending} at {page}: found {size - page}, wanted {wanted} to {wanted}\n"
            suite.check(f"{ending} of {size} bytes", suite.run(["check", "set"]), (6, b"", line.encode()))
        path.write_bytes(sound)
    remove(suite, "set")


def small_pools(suite):
    """The pool of a check is no larger than the set, whatever run its head tells of."""
    measured = Measured(suite)
    suite.file("text", K)
    suite.file("asked", b"")
    suite.run(["build", "text", "set", "--budget", str(1 << 30)])
    head = (suite.folder / "set.head").read_bytes()
    most = (1 << 40) - 1
    for name, content, wanted in [
        ("the greatest pool", head, 0),
        ("the greatest pool, and more occurrences", head[:40] + most.to_bytes(8, "big") + head[48:], 6),
        ("the greatest pool, and as many occurrences as bytes", head[:40] + head[32:40] + head[48:], 6),
    ]:
        suite.file("set.head", content)
        status, line, peak = measured.run(["check", "set"])
        suite.check(name, (status, re.fullmatch(LINES[wanted], line) is not None), (wanted, True))
        suite.check(f"{name}: memory", peak <= LEAST_PEAK or peak, True)
    measured.end()
    remove(suite, "set")


PARTS = [rows, each_bit, changed_sets, several_blocks, deep_places, small_pools]
