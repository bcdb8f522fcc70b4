"""Collections and sessions for the black-box suite, the same bytes on every machine.

Each kind is one way in which collections differ: small alphabets with many closing bytes, bytes
that are no text, runs at the length where a piece is cut, empty documents, lines that end in a
carriage return. The random numbers are those of a linear congruential generator of our own, so
that no library's generator can change the bytes.
"""

CLOSE = b"\x02"


class Draws:
    """Random numbers by x -> 6364136223846793005 x + 1442695040888963407 modulo 2^64."""

    def __init__(self, seed):
        self.state = seed

    def below(self, count):
        self.state = (self.state * 6364136223846793005 + 1442695040888963407) % 2**64
        return (self.state >> 33) % count

    def one_of(self, choices):
        return choices[self.below(len(choices))]


def mail(draws):
    """Letters with a head and a few sentences over four hundred words."""
    words = [bytes(draws.one_of(b"aeioubdfgklmnprst") for _ in range(2 + draws.below(7))) for _ in range(400)]
    letters = []
    for number in range(60):
        lines = [b"From: " + draws.one_of(words) + b"@" + draws.one_of(words) + b".example", b""]
        for _ in range(1 + draws.below(5)):
            count = 4 + draws.below(9)
            lines.append(b" ".join(words[draws.below(1 + draws.below(400))] for _ in range(count)).capitalize() + b".")
        letters.append(b"\n".join(lines) + b"\n" + CLOSE)
    return b"".join(letters)


def small_alphabet(draws):
    """Very short documents over four letters and two separators."""
    return bytes(draws.one_of(b"aAbc .\x02") for _ in range(3000))


def many_bytes(draws):
    """All 256 byte values, equally often."""
    return bytes(draws.below(256) for _ in range(6000))


def long_runs(draws):
    """Runs of one kind of byte with 254 to 257, 510 and 511 bytes."""
    pieces = []
    for number in range(40):
        length = draws.one_of([1, 2, 254, 255, 256, 257, 510, 511])
        pieces.append(draws.one_of([b"a", b"B", b"z", b" ", b"."]) * length)
        if draws.below(4) == 0:
            pieces.append(CLOSE)
    return b"".join(pieces)


def empty_documents(draws):
    """Documents that are empty, with a few that are not."""
    return b"".join(draws.one_of([b"", b"", b"", b"x", b" ", b"x y"]) + CLOSE for _ in range(80))


def carriage_returns(draws):
    """Lines that end in 0x0D 0x0A."""
    words = [b"red", b"Green", b"blue", b"GREY", b"white"]
    return b"".join(
        b"\r\n".join(draws.one_of(words) for _ in range(1 + draws.below(4))) + b"\r\n" + CLOSE for _ in range(50)
    )


def one_word(draws):
    """One word, again and again, in documents of different lengths."""
    return b"".join(b"ox " * (1 + draws.below(60)) + CLOSE for _ in range(70))


def capitals(draws):
    """Words that are the same but for capitals."""
    words = [b"the", b"The", b"THE", b"cat", b"Cat", b"cAt", b"dog", b"DOG"]
    return b"".join(b" ".join(draws.one_of(words) for _ in range(1 + draws.below(8))) + b"\n" + CLOSE for _ in range(60))


def open_end(draws):
    """Documents of which the last is not closed."""
    return capitals(draws)[:-1]


def utf8(draws):
    """Words with letters outside ASCII."""
    words = ["Straße", "straße", "naïve", "Ärger", "ärger", "漢字", "слово", "Слово"]
    return b"".join(" ".join(draws.one_of(words) for _ in range(1 + draws.below(6))).encode() + CLOSE for _ in range(50))


def numbers(draws):
    """Decimal numbers of one to four digits."""
    return b"".join(
        b", ".join(b"%d" % draws.below(10 ** (1 + draws.below(4))) for _ in range(1 + draws.below(9))) + CLOSE
        for _ in range(60)
    )


def one_document(draws):
    """One document of many words, not closed."""
    return b" ".join(bytes(draws.one_of(b"abcde") for _ in range(1 + draws.below(3))) for _ in range(1500))


KINDS = [
    mail, small_alphabet, many_bytes, long_runs, empty_documents, carriage_returns, one_word, capitals,
    open_end, utf8, numbers, one_document,
]


def is_word_byte(byte):
    return byte >= 128 or chr(byte).isalnum()


def words_of(collection):
    """Some words of a collection, at most two hundred."""
    words, word = [], b""
    for byte in collection:
        if is_word_byte(byte):
            word += bytes([byte])
        elif word:
            words.append(word)
            word = b""
    words.append(word or b"none")
    return sorted(set(words))[:200]


def operand(draws, words, depth):
    kind = draws.below(8 if depth else 5)
    word = draws.one_of(words) if draws.below(8) else b"absent"
    if kind < 4:
        return word
    if kind == 4:
        return b"!" + word
    if kind == 5:
        return b"(" + boolean(draws, words, depth - 1) + b")"
    if kind == 6:
        return b"!(" + boolean(draws, words, depth - 1) + b" )"
    return b"! !" + word


def boolean(draws, words, depth=2):
    line = operand(draws, words, depth)
    for _ in range(draws.below(4)):
        line += draws.one_of([b" & ", b"|", b" ", b" , ", b" | ", b"\t"]) + operand(draws, words, depth)
    return line


def odd(draws, words):
    """A line that is no plain query: a refusal, a command, a long line, nothing."""
    return draws.one_of([
        b"", b" \t ", b"&", b"a &", b"(a", b"a)", b"a | | b", b"()", b"!", b", ,", b".cat", b". set", b".set maxdocs 0",
        b".set maxdocs 00000012", b".set  mode\tcount ", b".set mode text", b".set mode docnums", b".set query ranked",
        b".set query boolean", b".set maxdocs 3", b".set maxdocs 0000007", b".set maxdocs all", b".set maxdocs 1048577",
        b".quit now", b" .quit", b"a" * 255, b"a" * 256, b"x " * 512, b"x " * 513, b"(" * 33 + b"a", b"(" * 32 + b"a" + b")" * 32,
        b" ".join(b"w%d" % n for n in range(65)), b"a\r", b"a\r\r", b"\r", b"\xff\x00\xfe",
    ])


def session(draws, collection, count=200):
    """A session of so many lines over a collection."""
    words = words_of(collection)
    lines = []
    for number in range(count):
        kind = draws.below(10)
        if kind < 5:
            lines.append(boolean(draws, words))
        elif kind < 8:
            lines.append(b" ".join(draws.one_of(words) for _ in range(1 + draws.below(4))))
        else:
            lines.append(odd(draws, words))
    return b"\n".join(line.replace(b"\n", b" ") for line in lines) + draws.one_of([b"", b"\n"])


def cases():
    """Each kind's name, its collection and a session over it."""
    for seed, kind in enumerate(KINDS, 1):
        draws = Draws(seed)
        collection = kind(draws)
        yield kind.__name__, collection, session(draws, collection)
