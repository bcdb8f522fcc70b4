"""The line of each kind of damage of a head, of models, of a text, of places and of the counts of a lexicon: the part, the place,
what was found there and what may stand there; and what a session prints before it comes to a damage. The numbers are worked by
hand from the form of the parts.
"""

import pathlib
import sys

sys.path.insert(0, str(pathlib.Path(__file__).parent / "reference"))

from files import BUDGET, K, remove
from parts import build, front, read_front
from sessions import session
from standing import write_parts
from texts import Collection

EIGHT = b"a a a a "
# Where a head has how many words there are.
WORDS_AT = 12
# The sum of a model's lengths, each counted as 2 to the power of 48 less it.
WHOLE = 1 << 48
MOST = (1 << 64) - 1

# Digits that are written into a head of either version from a place on, and the line.
HEADS_1 = [
    (7, b"\x0b", "head at 7: found 11, wanted 10 to 10"),
    (0, b"N", "head at 0: found 78, wanted 77 to 77"),
    (6, b"3", "head at 6: found 51, wanted 49 to 50"),
    (6, b"2", "head at 0: found 64, wanted 80 to 80"),
    (8, b"\0\x10\0\1", "head at 8: found 1048577, wanted 0 to 1048576"),
    (12, b"\0\x10\0\1", "head at 12: found 1048577, wanted 0 to 1048576"),
    (16, b"\0\x10\0\1", "head at 16: found 1048577, wanted 0 to 1048576"),
    (20, b"\0\0\0\2", "head at 20: found 2, wanted 0 to 1"),
    (24, b"\0\0\1\x54", "head at 24: found 340, wanted 341 to 89478485"),
    (28, b"\0\0\0\2", "head at 28: found 2, wanted 0 to 1"),
    (32, b"\x10\0\0\1", "head at 32: found 268435457, wanted 0 to 268435456"),
    (36, b"\0\0\0\x09", "head at 36: found 9, wanted 0 to 8"),
    (40, b"\0\0\0\2", "head at 40: found 2, wanted 1 to 1"),
    (56, b"\0\0\0\0\0\0\0\5", "head at 56: found 5, wanted 0 to 4"),
    # Numbers at their bounds are read, and another part does not have as much.
    (8, b"\0\x10\0\0", "places at 0: found 8, wanted 4194308 to 4194308"),
    (8, b"\0\0\0\0", "places at 0: found 8, wanted 4 to 4"),
    (12, b"\0\x10\0\0", "words at 0: found 3, wanted 2097152 to 18446744073709551615"),
    (16, b"\0\x10\0\0", "nonwords at 0: found 3, wanted 2097152 to 18446744073709551615"),
    (16, b"\0\0\0\0", "nonwords at 0: found 3, wanted 0 to 0"),
]
HEADS_2 = [
    (7, b"\x0b", "head at 7: found 11, wanted 10 to 10"),
    (6, b"3", "head at 6: found 51, wanted 49 to 50"),
    (6, b"0", "head at 6: found 48, wanted 49 to 50"),
    (6, b"1", "head at 0: found 80, wanted 64 to 64"),
    (8, b"\1\0\0\1", "head at 8: found 16777217, wanted 0 to 16777216"),
    (12, b"\0\x40\0\1", "head at 12: found 4194305, wanted 0 to 4194304"),
    (16, b"\0\x40\0\1", "head at 16: found 4194305, wanted 0 to 4194304"),
    (20, b"\0\0\0\2", "head at 20: found 2, wanted 0 to 1"),
    (24, b"\0\0\1\x54", "head at 24: found 340, wanted 341 to 89478485"),
    (24, b"\5\x55\x55\x56", "head at 24: found 89478486, wanted 341 to 89478485"),
    (28, b"\0\0\0\2", "head at 28: found 2, wanted 0 to 1"),
    (32, b"\0\0\0\1\0\0\0\0", "head at 32: found 4294967296, wanted 0 to 4294967295"),
    (40, b"\0\0\0\0\0\0\0\x09", "head at 40: found 9, wanted 0 to 8"),
    (48, b"\0\0\0\2", "head at 48: found 2, wanted 1 to 1"),
    (48, b"\0\0\0\0", "head at 48: found 0, wanted 1 to 1"),
    (52, b"\0\0\0\1", "head at 52: found 1, wanted 0 to 0"),
    (72, b"\0\0\0\0\0\0\0\5", "head at 72: found 5, wanted 0 to 4"),
    (8, b"\1\0\0\0", "places at 0: found 16, wanted 134217736 to 134217736"),
    (12, b"\0\x40\0\0", "words at 0: found 3, wanted 8388608 to 18446744073709551615"),
    (16, b"\0\x40\0\0", "nonwords at 0: found 3, wanted 8388608 to 18446744073709551615"),
]
# How many bytes a head of each version has, and sizes that it has not.
SIZES = [(1, 64, [63, 65, 80, 81]), (2, 80, [64, 79, 81])]
# Other bytes of a part, which are told alike in both versions.
PARTS_OF_BOTH = [
    ("text", b"\xc8", "text at 0: found 1, wanted 2 to 2"),
    ("text", b"", "text at 0: found 0, wanted 2 to 2"),
    ("head", b"MGROWv1\n\0\0", "head at 0: found 10, wanted 64 to 64"),
    ("head", b"MGROWv2\n\0\0", "head at 0: found 10, wanted 64 to 64"),
]
# The size of Places in each version, without their last byte.
PLACES = [(1, 8), (2, 16)]


def digits_of(count, length):
    """The model of the six digits of so many numbers: where four divides a number its entry is whole, in eight bytes, and every
    other shares all but the last digit with the one before."""
    model = bytearray()
    for number in range(count):
        digits = b"%06x" % number
        model += (b"\6" + digits if number % 4 == 0 else b"\5\1" + digits[5:]) + bytes([length])
    return bytes(model)


def changed(model, size, at, byte):
    """So many bytes of a model, one of them another."""
    model = bytearray(model[:size])
    model[at] = byte
    return bytes(model)


def broken(at):
    return f"words at {at}: found 0, wanted 1 to 1"


def sum_of(found):
    return f"words at 0: found {found}, wanted {WHOLE} to {WHOLE}"


PAGES = digits_of(8192, 13)
# Models of so many words, and the line.
MODELS = [
    (1_048_576, b"\1a\1", f"words at 0: found 3, wanted 2097152 to {MOST}"),
    (2, b"\1a\1", f"words at 0: found 3, wanted 4 to {MOST}"),
    (1, b"", f"words at 0: found 0, wanted 2 to {MOST}"),
    # An entry breaks off, does not rise, or shares another number of bytes than it says.
    (1, b"\2a\1", broken(0)),
    (1, b"\1a", broken(0)),
    (2, b"\1a\1\0", broken(3)),
    (2, b"\1b\1\0\1a\1", broken(3)),
    (2, b"\1a\1\1\0\1", broken(3)),
    (2, b"\2ab\1\0\2ac\1", broken(4)),
    (2, b"\2ab\1\3\1c\1", broken(4)),
    # Bytes are left over, or a length is none.
    (1, b"\1a\1\0", "words at 3: found 1, wanted 0 to 0"),
    (1, b"\1a\2\0\0\0", "words at 3: found 3, wanted 0 to 0"),
    (1, b"\1a\2", "words at 2: found 2, wanted 1 to 1"),
    (1, b"\1a\0", "words at 2: found 0, wanted 1 to 1"),
    (2, b"\1a\1\0\1b\0", "words at 6: found 0, wanted 1 to 48"),
    (2, b"\1a\x31\0\1b\0", "words at 2: found 49, wanted 1 to 48"),
    # Lengths leave codewords over, or take too many.
    (2, b"\1a\2\0\1b\2", sum_of(1 << 47)),
    (2, b"\1a\1\0\1b\2", sum_of(3 << 46)),
    (3, b"\1a\1\0\1b\1\0\1c\x30", sum_of(WHOLE + 1)),
    # A sum above all numbers of 64 bits is told as the greatest.
    (131_071, digits_of(131_071, 1), sum_of(18_446_603_336_221_196_288)),
    (131_072, digits_of(131_072, 1), sum_of(MOST)),
    (131_073, digits_of(131_073, 1), sum_of(MOST)),
    # A model of ten pages: the entry of word 5,000 takes the bytes from 25,000 to 25,007, the last its length.
    (8192, changed(PAGES, 40_960, 25_007, 49), "words at 25007: found 49, wanted 1 to 48"),
    (8192, changed(PAGES, 40_960, 25_000, 5), broken(25_000)),
    (8192, changed(PAGES, 30_000, 0, 6), broken(30_000)),
    (8192, changed(PAGES, 29_999, 0, 6), broken(29_996)),
    (8192, changed(PAGES, 16_383, 0, 6), f"words at 0: found 16383, wanted 16384 to {MOST}"),
]
# Models of one word and of one other, and the line: that of the words comes first.
BOTH = [
    (b"\1a\1", b"\1 \0", "nonwords at 2: found 0, wanted 1 to 1"),
    (b"\1a\2", b"\1 \0", "words at 2: found 2, wanted 1 to 1"),
    (b"\1a\1", b"", f"nonwords at 0: found 0, wanted 2 to {MOST}"),
    (b"", b"", f"words at 0: found 0, wanted 2 to {MOST}"),
]


def told(suite, name, parts, line):
    """`decode` prints nothing, and tells this line."""
    write_parts(suite.folder / "set", parts)
    suite.check(name, suite.run(["decode", "set"]), (6, b"", f"mg: damaged: part {line}\n".encode()))


def set_of(version):
    return build(Collection(EIGHT), BUDGET, version)


def with_digits(content, at, digits):
    return content[:at] + digits + content[at + len(digits) :]


def heads(suite):
    """Each field of a head."""
    for version, rows in [(1, HEADS_1), (2, HEADS_2)]:
        sound = set_of(version)
        for at, digits, line in rows:
            other = with_digits(sound["head"], at, digits)
            told(suite, f"{digits.hex()} at {at} of a head of version {version}", sound | {"head": other}, line)
    for version, size, others in SIZES:
        sound = set_of(version)
        for found in others:
            line = f"head at 0: found {found}, wanted {size} to {size}"
            other = (sound["head"] + bytes(17))[:found]
            told(suite, f"a head of version {version} of {found} bytes", sound | {"head": other}, line)
    remove(suite, "set")


def parts(suite):
    """Parts of other sizes."""
    for version, size in PLACES:
        sound = set_of(version)
        for ending, content, line in PARTS_OF_BOTH:
            told(suite, f"{ending} of version {version} as {content!r}", sound | {ending: content}, line)
        for cut in (sound["places"][:-1], b""):
            line = f"places at 0: found {len(cut)}, wanted {size} to {size}"
            told(suite, f"places of version {version} of {len(cut)} bytes", sound | {"places": cut}, line)
    remove(suite, "set")


def models(suite):
    """Models that do not stand."""
    for version in (1, 2):
        sound = set_of(version)
        for count, words, line in MODELS:
            head = with_digits(sound["head"], WORDS_AT, count.to_bytes(4, "big"))
            told(suite, f"{count} words in {len(words)} bytes, version {version}", sound | {"head": head, "words": words}, line)
        for words, others, line in BOTH:
            told(suite, f"words {words!r}, others {others!r}", sound | {"words": words, "nonwords": others}, line)
    remove(suite, "set")


# How many bytes a head tells of the three documents of K, which have 39 with the bytes that close them; the document that goes
# beyond them, from 0; how far it was decoded, with its closing byte where that is the first beyond; and how many were left for it.
BEYOND = [
    # `the cat sat` and a line feed, which are 12 bytes: `sat` is the first piece beyond 9, and the closing byte beyond 12.
    (9, 0, 11, 9),
    (12, 0, 13, 12),
    # Behind the first document and the byte that closes it stand `the dog` and a line feed, which are 8.
    (21, 1, 9, 8),
    # Behind 22 bytes stand `Cat`, a comma with a blank, `cat` and ` & `.
    (30, 2, 11, 8),
    (38, 2, 17, 16),
]


def heads_of_less(suite):
    """A text that means more than its head tells is damaged where it goes beyond it, and nothing of that is printed."""
    for version, width in [(1, 4), (2, 8)]:
        sound = build(Collection(K), BUDGET, version)
        for size, document, found, left in BEYOND:
            place = int.from_bytes(sound["places"][width * document : width * (document + 1)], "big")
            head = with_digits(sound["head"], 32, size.to_bytes(width, "big"))
            line = f"text at {8 * place}: found {found}, wanted 0 to {left}"
            told(suite, f"a head of version {version} that tells {size} bytes of 39", sound | {"head": head}, line)
        # A document is shown as far as it may come by itself: of the first, 12 bytes long, `sat` goes beyond 9.
        write_parts(suite.folder / "set", sound | {"head": with_digits(sound["head"], 32, (9).to_bytes(width, "big"))})
        status, _, line = suite.run(["query", "set"], b".set mode text\nsat\n")
        asked = f"mg: damaged: part text at {8 * int.from_bytes(sound['places'][:width], 'big')}: found 11, wanted 0 to 9\n"
        suite.check(f"a head of version {version} that tells 9 bytes: a shown document", (status, line), (6, asked.encode()))
    remove(suite, "set")


def stops(suite, name, tool, lines, printed):
    """A session prints just this, and then stops at a damage."""
    status, out, line = suite.run([tool, "set"], lines)
    suite.check(f"{tool}: {name}", (status, out, line.startswith(b"mg: damaged: part ")), (6, printed, True))


# Two hundred documents with one word; the list of it is of four blocks, and those of the two others are of one.
MANY = b"".join(b"x%s\n\x02" % {0: b" rare", 189: b" late"}.get(number, b"") for number in range(200))
# What a session begins with, by the kind of its lines: each begins with a line that no document answers.
KINDS = {
    "Boolean": b"zebra\n",
    "ranked": b"zebra\n.set query ranked\n",
    "shown": b"zebra\n.set mode text\n.set maxdocs 1\n",
    "shown by rank": b"zebra\n.set query ranked\n.set mode text\n.set maxdocs 1\n",
}


def half(content):
    return content[: len(content) // 2]


def zeros(content):
    return bytes(len(content))


def ones(content):
    return b"\xff" * len(content)


# Parts damaged so, a line of each kind that needs what is damaged, and what begins the damage's line. Skip has an entry of 128
# bits for each block: those of late and of rare, then the four of x. A search for x looks at the last of its entries first.
OVER_DAMAGE = [
    ("post", half, "x", KINDS, "post at "),
    ("post", half, "late & x", ["Boolean", "shown"], "post at "),
    ("post", ones, "x", KINDS, "post at "),
    ("skip", half, "x", KINDS, "skip at "),
    ("skip", half, "late & x", ["Boolean", "shown"], "skip at "),
    ("skip", ones, "x", KINDS, "skip at "),
    ("skip", zeros, "x", KINDS, "skip at 640: found 0, wanted 1 to 1\n"),
    ("skip", zeros, "late & x", ["Boolean", "shown"], "skip at 0: found 0, wanted 1 to 1\n"),
    ("weights", zeros, "late", ["ranked", "shown by rank"], "weights at "),
    ("weights", half, "late", ["ranked", "shown by rank"], "weights at "),
    ("text", ones, "late", ["shown", "shown by rank"], "text at "),
    ("text", half, "late", ["shown", "shown by rank"], "text at "),
]


def lines_over_damage(suite):
    """A damage that a line meets is told, whatever kind of line it is: it is no answer of fewer documents."""
    sound = build(Collection(MANY), BUDGET, 2)
    for ending, change, line, kinds, damage in OVER_DAMAGE:
        write_parts(suite.folder / "set", sound | {ending: change(sound[ending])})
        for kind in kinds:
            first, asked = KINDS[kind], KINDS[kind] + line.encode() + b"\n"
            whole = session(Collection(MANY), asked)
            status, out, told = suite.run(["query", "set"], asked)
            name = f"{line}, {kind}, over {change.__name__} of {ending}"
            begun = b"mg: damaged: part " + damage.encode()
            suite.check(f"{name}: status and place", (status, told[: len(begun)]), (6, begun))
            suite.check(f"{name}: the line before is answered", out.startswith(session(Collection(MANY), first)), True)
            suite.check(f"{name}: a front of the answer", whole.startswith(out) and len(out) < len(whole), True)
    remove(suite, "set")


def sessions(suite):
    """What was answered before the damage stays, and what no line asks for is not looked at."""
    sound = build(Collection(K), BUDGET, 2)
    write_parts(suite.folder / "set", sound | {"post": sound["post"][:3]})
    stops(suite, "lists that are cut", "query", b"zebra\nthe\ncat\n", b"= 0\n")
    write_parts(suite.folder / "set", sound | {"text": b"\xff" * 8})
    stops(suite, "a text that ends within a document", "phrase", b"zebra\nthe cat\n", b"= 0\n")
    for ending in ("words", "nonwords"):
        write_parts(suite.folder / "set", sound | {ending: b"\3Cat"})
        counted = suite.run(["query", "set"], b"cat\n")
        suite.check(f"damaged {ending}, and no text is shown", counted, (0, b"1\n3\n= 2\n", b""))
        found = suite.run(["phrase", "set"], b"zebra cat\n, ,\nsat dog\n")
        suite.check(f"damaged {ending}, and no document has all words", found, (0, b"= 0\n= 0\n= 0\n", b""))
        stops(suite, f"damaged {ending}, at the first document that has all words", "phrase", b"zebra\nthe cat\n", b"= 0\n")
        status, out, _ = suite.run(["query", "set"], b"cat\n.set mode text\nsat\n")
        suite.check(f"damaged {ending}, at the first text", (status, out.removesuffix(b"-- 1\n")), (6, b"1\n3\n= 2\n"))
    write_parts(suite.folder / "set", sound | {"lex": sound["lex"][:40]})
    suite.check("a lexicon that is cut, and no line", suite.run(["wild", "set"], b""), (0, b"", b""))
    bad = b"? bad pattern at 3\n? line too long\n? bad pattern at 1\n"
    unasked = b"cat\n \n" + b"*" * 1025 + b"\n**\n"
    suite.check("a lexicon that is cut, and no pattern", suite.run(["wild", "set"], unasked), (0, bad, b""))
    stops(suite, "a lexicon that is cut, at the first pattern", "wild", unasked + b"cat*\n*\n", bad)
    write_parts(suite.folder / "set", sound | {"weights": sound["weights"][:8]})
    stops(suite, "weights that are cut", "query", b"zebra\n.set query ranked\ncat\n", b"= 0\n")
    remove(suite, "set")


# How many documents a lexicon tells of terms of MANY, a ranked line, and the term whose damage is told. The terms are late, rare
# and x, of which the set has 1, 1 and 200 documents of its 200.
COUNTS = [
    ({"late": 0}, "late", "late"),
    ({"rare": 0}, "rare", "rare"),
    ({"rare": 201}, "rare", "rare"),
    ({"x": 0}, "x", "x"),
    ({"x": 201}, "x", "x"),
    ({"x": (1 << 32) - 1}, "late x", "x"),
    # Of several the first in the line is told, and one that is not in the line is not looked at.
    ({"late": 0, "x": 0}, "x rare late", "x"),
    ({"late": 0, "x": 0}, "rare late x", "late"),
    ({"late": 0}, "rare x", None),
]


def with_counts(lex, terms, counts):
    """The lexicon with other numbers of documents of some terms."""
    _, fields = read_front("lex", lex, 16)
    for term, count in counts.items():
        number = terms.index(term.encode())
        fields[number] = count.to_bytes(4, "big") + fields[number][4:]
    return front(terms, fields)[0]


def counts_of_terms(suite):
    """A ranked line tells which term the lexicon counts wrongly: a term that no document has, or more than there are."""
    collection = Collection(MANY)
    sound = build(collection, BUDGET, 2)
    terms = collection.distinct_terms
    for counts, words, damaged in COUNTS:
        write_parts(suite.folder / "set", sound | {"lex": with_counts(sound["lex"], terms, counts)})
        asked = b"zebra\n.set query ranked\n" + words.encode() + b"\n"
        wanted = (0, session(collection, asked), b"")
        if damaged:
            place = terms.index(damaged.encode())
            line = f"mg: damaged: part lex at {place}: found {counts[damaged]}, wanted 1 to {len(collection)}\n"
            wanted = (6, session(collection, b"zebra\n"), line.encode())
        suite.check(f"{words}, ranked, over a lexicon that tells {counts}", suite.run(["query", "set"], asked), wanted)
    remove(suite, "set")


PARTS = [heads, parts, models, heads_of_less, sessions, lines_over_damage, counts_of_terms]
