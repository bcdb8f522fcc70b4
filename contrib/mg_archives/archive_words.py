"""What people write to find documents, read into a tree of words, phrases, patterns and fields.

Signs of other systems are read as they are meant there where mg can answer them; the rest is refused, with what to
write instead.
"""

import dataclasses
import re

from mg_archives.refusals import USAGE, Refusal
from mg_archives.texts import plain_signs

# What mg takes for a word, cut after 255 bytes as mg does.
WORD = re.compile(rb"[0-9A-Za-z\x80-\xff]{1,255}")
TOO_LONG = re.compile(rb"[0-9A-Za-z\x80-\xff]{256}")
FIELDS = ("from", "subject", "date", "after", "before", "path", "id")
FOREIGN = (
    "to", "cc", "bcc", "recipient", "body", "text", "content", "tag", "label", "is", "has", "in", "folder", "mailbox",
    "attachment", "filename", "file", "list", "thread", "size", "larger", "smaller", "older", "newer", "older_than",
    "newer_than", "since", "until", "title", "author", "sender", "mimetype", "type", "flag", "prio", "site", "ext",
)
# What another name of a field is called here.
MEANT = {"since": "after:DATE", "until": "date:..DATE", "sender": "from:", "author": "from:", "title": "subject:", "file": "path:",
         "filename": "path:", "folder": "path:", "newer": "after:DATE", "older": "before:DATE"}
TOKEN = re.compile(r"""
    \s+ | (?P<sign>[-+!](?=[^\s&|)])) | (?P<open>\() | (?P<close>\)) | (?P<and>&&?) | (?P<or>\|\|?) |
    (?P<field>[A-Za-z_]+:(?="))?"(?P<phrase>[^"]*)(?P<end>"?) | (?P<run>[^\s()"&|]+)
""", re.X)
QUOTES = str.maketrans("“”„‟«»", '""""""')
NEARNESS = re.compile(r"(?:NEAR|ADJ|WITHIN|ONEAR)(?:/\d+)?")


@dataclasses.dataclass(frozen=True)
class Word:
    text: bytes


@dataclasses.dataclass(frozen=True)
class Phrase:
    words: tuple


@dataclasses.dataclass(frozen=True)
class Pattern:
    text: bytes


@dataclasses.dataclass(frozen=True)
class Field:
    name: str
    value: str


@dataclasses.dataclass(frozen=True)
class Not:
    part: object


@dataclasses.dataclass(frozen=True)
class And:
    parts: tuple


@dataclasses.dataclass(frozen=True)
class Or:
    parts: tuple


@dataclasses.dataclass(frozen=True)
class Wanted:
    """A part with a plus before it: every document of the answer has it."""

    part: object


@dataclasses.dataclass(frozen=True)
class Sought:
    """What is asked. A document of the answer satisfies `wanted`, if there is any, and where `words` are there and
    `each` is not set, it has one of these; by them the documents are ranked."""

    wanted: object
    words: tuple
    each: bool


def refuse(text):
    raise Refusal(USAGE, text)


def words_of(text):
    """The words of a text as mg takes them, in small letters."""
    data = text.encode("utf-8", "surrogateescape")
    if TOO_LONG.search(data):
        refuse("a word has at most 255 bytes")
    return [word.lower() for word in WORD.findall(data)]


def read_phrase(text):
    """The phrase of all words of a text, whatever stands between them."""
    words = words_of(plain_signs(text))
    if not words:
        refuse(f"no word in the phrase: {text!r}")
    return Word(words[0]) if len(words) == 1 else Phrase(tuple(words))


def read_pattern(run):
    """A word with one star in it."""
    found = re.fullmatch(rb"[^0-9A-Za-z\x80-\xff*]*([0-9A-Za-z\x80-\xff*]+)[^0-9A-Za-z\x80-\xff*]*", run.encode("utf-8", "surrogateescape"))
    if not found or found[1].count(b"*") != 1:
        refuse(f"{run}: a pattern is one word with one * in it, such as dredg*")
    if found[1] == b"*":
        refuse(f"{run}: a lone * has no letters; leave it out")
    return Pattern(found[1].lower())


def read_field(name, value):
    """A filter by a column of the table; none where the name is no field's."""
    name = name.lower()
    if name in FIELDS and value:
        return Field(name, value)
    if name in FIELDS:
        refuse(f"{name}: without a blank behind the colon, as in {name}:{'2023-03' if name in FIELDS[2:5] else 'word'}")
    if name in FOREIGN:
        known = "from:, subject:, date:, after:, before:, path: and id:"
        refuse(f"{name}: is no field here; write {MEANT.get(name, 'the word alone, which looks at whole documents')} (the fields are {known})")
    return None


def read_run(run):
    """A run of signs without blanks: a field, a pattern, a word, or several words that stand side by side."""
    name, colon, value = run.partition(":")
    field = read_field(name, value) if colon else None
    if field:
        return field
    if "*" in run:
        return read_pattern(run)
    if NEARNESS.fullmatch(run):
        refuse(f"{run}: mg has no nearness; write the words with AND, or a phrase in quotes")
    if run == "XOR":
        refuse("XOR: write (a AND NOT b) OR (b AND NOT a)")
    if re.search(r"\w\?\w", run):
        refuse(f"{run}: ? stands for no letter; write one *, which stands for any letters")
    if re.search(r"\w[~^]\d*(?:\.\d+)?$", run):
        refuse(f"{run}: mg has no likeness of words and no weights; write the words alone")
    if len(run) > 2 and run[0] == run[-1] == "/":
        refuse(f"{run}: mg has no regular expressions; write words, or a word with one *")
    words = words_of(run)
    if not words:
        return None
    return Word(words[0]) if len(words) == 1 else Phrase(tuple(words))


class Reader:
    """Reads a line by the grammar: signs and NOT bind tightest, then AND and side by side, then OR."""

    def __init__(self, line, plain):
        self.tokens = list(tokens_of(line))
        self.place = 0
        self.plain = plain
        # Whether a word that joins or a parenthesis was met.
        self.joined = False

    def peek(self):
        return self.tokens[self.place] if self.place < len(self.tokens) else ("end", None)

    def take(self):
        token = self.peek()
        self.place += 1
        return token

    def alternatives(self):
        """Parts with OR between them."""
        parts = [self.conjunction()]
        while self.peek()[0] == "or":
            self.take()
            self.joined = True
            parts.append(self.conjunction())
        if len(parts) == 1:
            return parts[0][0]
        if self.plain and any(beside for _, beside in parts):
            refuse("words side by side and OR can be meant in two ways; write parentheses: (crane OR winch) silt, or crane OR (winch silt)")
        return Or(tuple(part for part, _ in parts))

    def conjunction(self):
        """Parts with AND between them, or nothing; and whether there are some with nothing between."""
        parts, beside = [self.negation()], False
        while self.peek()[0] not in ("or", "close", "end"):
            if self.peek()[0] == "and":
                self.take()
                self.joined = True
            else:
                beside = True
            parts.append(self.negation())
        return (parts[0] if len(parts) == 1 else And(tuple(parts))), beside

    def negation(self):
        """A part, with the signs before it."""
        kind, value = self.take()
        if kind == "not":
            part = self.negation()
            return part.part if isinstance(part, Not) else Not(part)
        if kind == "wanted":
            return Wanted(self.negation())
        if kind == "open":
            self.joined = True
            part = self.alternatives()
            if self.take()[0] != "close":
                refuse("a parenthesis is not closed")
            return part
        if kind == "part":
            return value
        if kind == "close":
            refuse("a parenthesis is closed that was not opened, or has nothing in it")
        name = value or {"and": "AND", "or": "OR"}.get(kind)
        refuse(f"{name} stands between two words; the word itself is written in small letters" if name else "a word is missing at the end")

    def line(self):
        """The whole line."""
        if self.peek()[0] == "end":
            refuse("no word is asked for")
        part = self.alternatives()
        if self.peek()[0] != "end":
            refuse("a parenthesis is closed that was not opened")
        return part


def tokens_of(line):
    """What a line is made of: kinds and values. Signs without a word are passed over."""
    line = line.translate(QUOTES)
    place = 0
    while place < len(line):
        found = TOKEN.match(line, place)
        place = found.end()
        kind = found.lastgroup if found.lastgroup != "end" else "phrase"
        if kind in ("open", "close", "and", "or"):
            yield kind, found[0] if kind in ("and", "or") else None
        elif kind == "sign":
            yield ("wanted" if found[0] == "+" else "not"), found[0]
        elif kind == "phrase":
            yield "part", quoted(found)
        elif kind == "run":
            yield from run_tokens(plain_signs(found[0]))


def quoted(found):
    """A phrase in quotes, or a field with one."""
    if not found["end"]:
        refuse("a quote is not closed")
    field = found["field"] and read_field(found["field"][:-1], found["phrase"].strip())
    if field:
        return field
    if "*" in found["phrase"]:
        refuse(f'"{found["phrase"]}": a phrase has whole words; leave the * out, or the quotes')
    return read_phrase((found["field"] or "") + found["phrase"])


def run_tokens(run):
    """The tokens of a run of signs."""
    if run in ("AND", "OR"):
        yield run.lower(), run
    elif run == "NOT":
        yield "not", run
    else:
        for piece in run.split():
            part = read_run(piece)
            if part:
                yield "part", part


def scored(part):
    """The words of a part by which its documents are ranked, and its patterns: those that are not left out."""
    if isinstance(part, (Word, Pattern)):
        return [part]
    if isinstance(part, Phrase):
        return [Word(word) for word in part.words]
    if isinstance(part, Wanted):
        return scored(part.part)
    if isinstance(part, (And, Or)):
        return [word for inner in part.parts for word in scored(inner)]
    return []


def without_signs(part):
    """The part without its plus signs."""
    if isinstance(part, Wanted):
        return without_signs(part.part)
    if isinstance(part, Not):
        return Not(without_signs(part.part))
    if isinstance(part, (And, Or)):
        return type(part)(tuple(without_signs(inner) for inner in part.parts))
    return part


def read_ranked(line):
    """A line for the best documents. Words side by side are any of them; with AND, OR or parentheses in the line it is
    Boolean, and its words rank what it answers."""
    reader = Reader(line, plain=True)
    part = reader.line()
    words = tuple(dict.fromkeys(scored(part)))
    if reader.joined:
        return Sought(without_signs(part), words, each=True)
    parts = part.parts if isinstance(part, And) else (part,)
    wanted = tuple(without_signs(inner) for inner in parts if not isinstance(inner, (Word, Pattern)))
    return Sought(And(wanted) if wanted else None, words, each=False)


def read_boolean(line):
    """A line whose documents come in the order of their numbers: words side by side are all of them."""
    part = without_signs(Reader(line, plain=False).line())
    return Sought(part, (), each=True), tuple(dict.fromkeys(scored(part)))


def read_whole_phrase(line):
    """A line that is one phrase."""
    part = read_phrase(line)
    return Sought(part, (), each=True), tuple(dict.fromkeys(scored(part)))
