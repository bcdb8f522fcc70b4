"""Which documents of a set satisfy a tree of words, phrases, patterns and fields, and which of them fit best.

mg answers each word, phrase and pattern, the table answers fields, and sets of documents are joined here. A set of
documents is a whole number whose bit n is set where document n is in it.
"""

import re

from mg_archives.archive_words import And, Field, Not, Or, Pattern, Phrase, Word, refuse, words_of
from mg_archives.tables import read_row

MOST_WORDS = 64
LONGEST_LINE = 1024
MOST_OPEN = 32
DAY = re.compile(r"\d{4}(?:-\d\d(?:-\d\d)?)?")


class Documents:
    """A set of documents in the making."""

    def __init__(self, last):
        self.bits = bytearray(last // 8 + 1)

    def add(self, number):
        self.bits[number >> 3] |= 1 << (number & 7)

    def whole(self):
        return int.from_bytes(self.bits, "little")


def numbers_of(documents):
    """The numbers of a set of documents, rising."""
    data = documents.to_bytes((documents.bit_length() + 7) // 8, "little")
    for place, byte in enumerate(data):
        if byte:
            for bit in range(8):
                if byte >> bit & 1:
                    yield place * 8 + bit


def line_of(part, depth=0):
    """A tree of words alone as a Boolean line of mg; none where something else is in it, or it is too deep."""
    if depth > MOST_OPEN:
        return None
    if isinstance(part, Word):
        return part.text
    if isinstance(part, Not):
        inner = line_of(part.part, depth + 1)
        return inner and b"!(%s)" % inner
    if isinstance(part, (And, Or)):
        inner = [line_of(piece, depth + 1) for piece in part.parts]
        sign = b" & " if isinstance(part, And) else b" | "
        return None if None in inner else sign.join(b"(%s)" % piece for piece in inner)
    return None


class Asked:
    """What is asked of a set for one tree: its leaves, and the documents of each."""

    def __init__(self, program, generation, last):
        self.program = program
        self.generation = generation
        self.last = last
        self.found = {}
        self.terms = {}

    def leaves(self, part):
        """The parts that are asked by themselves: lines of words, phrases, patterns and fields."""
        line = line_of(part)
        if line is not None and len(line) <= LONGEST_LINE:
            yield ("query", line)
        elif isinstance(part, Not):
            yield from self.leaves(part.part)
        elif isinstance(part, (And, Or)):
            for piece in part.parts:
                yield from self.leaves(piece)
        else:
            yield leaf_of(part)

    def ask(self, parts):
        """Asks mg and the table for all leaves of these trees."""
        leaves = dict.fromkeys(leaf for part in parts for leaf in self.leaves(part))
        for tool in ("query", "phrase", "wild"):
            lines = [line for kind, line in leaves if kind == tool]
            if lines:
                with self.program.ask(tool, self.generation.name, lines) as session:
                    for line in lines:
                        self.found[tool, line] = self.reply(tool, line, session)
        fields = [field for kind, field in leaves if kind == "field"]
        if fields:
            self.ask_table(fields)

    def reply(self, tool, line, session):
        """The documents of the next reply; the terms of a pattern are kept."""
        documents = Documents(self.last)
        terms = self.terms.setdefault(line, []) if tool == "wild" else []
        for row in session.rows():
            if row.startswith(b"+"):
                terms.append(row.split(b" ")[1])
            else:
                documents.add(int(row.partition(b" ")[0]))
        return documents.whole()

    def ask_table(self, fields):
        """Looks at each row of the table."""
        tests = [(Documents(self.last), test_of(field)) for field in fields]
        for row in rows_of(self.generation):
            for documents, fits in tests:
                if fits(row):
                    documents.add(row.number)
        for field, (documents, _) in zip(fields, tests):
            self.found["field", field] = documents.whole()

    def documents(self, part):
        """The documents of a tree whose leaves were asked."""
        line = line_of(part)
        if line is not None and ("query", line) in self.found:
            return self.found["query", line]
        if isinstance(part, Not):
            return ((1 << self.last + 1) - 2) & ~self.documents(part.part)
        if isinstance(part, (And, Or)):
            first, *others = map(self.documents, part.parts)
            for other in others:
                first = first & other if isinstance(part, And) else first | other
            return first
        return self.found[leaf_of(part)]

    def words(self, parts):
        """The words that these words and patterns stand for."""
        words = []
        for part in parts:
            words += [part.text] if isinstance(part, Word) else self.terms[part.text]
        return list(dict.fromkeys(words))


def leaf_of(part):
    """The tool that answers a part, and what it is asked."""
    if isinstance(part, Phrase):
        if len(part.words) > MOST_WORDS:
            refuse(f"a phrase has at most {MOST_WORDS} words")
        return "phrase", checked_line(b" ".join(part.words))
    if isinstance(part, Pattern):
        return "wild", part.text
    if isinstance(part, Field):
        return "field", part
    return "query", part.text


def checked_line(line):
    if len(line) > LONGEST_LINE:
        refuse(f"the words have more than {LONGEST_LINE} bytes")
    return line


def rows_of(generation):
    """The rows of a generation's table, which an addition numbered."""
    with open(generation.path(".table"), "rb") as file:
        for line in file:
            yield read_row(line)


def test_of(field):
    """Whether a row of the table has what a field wants."""
    if field.name == "id":
        wanted = field.value.strip("<>")
        return lambda row: row.message_id.strip("<>") == wanted
    if field.name in ("date", "after", "before"):
        return test_of_days(field)
    words = re.findall(rb"[0-9A-Za-z\x80-\xff*]+", field.value.encode("utf-8", "surrogateescape").lower())
    if not words:
        refuse(f"{field.name}:{field.value}: no word is asked for")
    within = b" ".join(re.escape(word).replace(rb"\*", rb"[^ ]*") for word in words)
    wanted = re.compile(rb"(?:^| )" + within + rb"(?: |$)")
    column = {"from": "sender", "subject": "subject", "path": "path"}[field.name]
    return lambda row: wanted.search(plain_column(getattr(row, column))) is not None


def plain_column(value):
    """The words of a column with a blank between them."""
    return b" ".join(words_of(value if isinstance(value, str) else value.decode("utf-8", "surrogateescape")))


def test_of_days(field):
    """Whether a row's day, or the beginning of it, is one that a field of dates takes."""
    first, dots, last = field.value.partition("..")
    if any(day and not DAY.fullmatch(day) for day in (first, last)) or not (first or last) or (dots and field.name != "date"):
        refuse(f"{field.name}:{field.value}: a date is 2023, 2023-03 or 2023-03-07, and date: takes 2023-03..2023-05 too")
    if field.name == "after":
        return lambda row: row.date[:10] >= first
    if field.name == "before":
        return lambda row: "" < row.date[:10] < first
    if not dots:
        return lambda row: row.date.startswith(first)
    return lambda row: bool(row.date) and row.date >= first and (not last or row.date[: len(last)] <= last)
