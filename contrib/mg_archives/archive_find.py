"""The documents of an archive that fit best, with the lines that have the words; and a document by its number."""

import dataclasses
import json
import os
import re
import sys

from mg_archives.archive_answer import MOST_WORDS, Asked, checked_line, numbers_of
from mg_archives.archive_origins import finding_line, records_of
from mg_archives.archive_words import Pattern, read_boolean, read_ranked, read_whole_phrase, refuse
from mg_archives.progress import columns
from mg_archives.refusals import FAILED, REFUSED, Refusal
from mg_archives.streams import write_whole

SHOWN_LINES = 2
WIDEST = 160
TOKEN = re.compile("[0-9A-Za-z\x80-\U0010ffff]+")
CONTROLS = re.compile("[\x00-\x1f\x7f-\x9f\u2028\u2029\u202a-\u202e\u2066-\u2069\ud800-\udfff]")
BOLD, PLAIN = "\x1b[1m", "\x1b[0m"


@dataclasses.dataclass
class Found:
    """An answer: how many documents it has, those that are shown, each with its score or none, and the words that are
    told apart in them."""

    count: int
    rows: list
    words: frozenset


def documents_in(generation):
    """How many documents a generation has, by the head of its set."""
    with open(generation.path(".head"), "rb") as file:
        return int.from_bytes(file.read(12)[8:], "big")


def find(program, generation, line, kind, most):
    """The answer to a line of words: ranked, Boolean, or one phrase."""
    if kind == "ranked":
        sought = read_ranked(line)
        shown = sought.words
    else:
        sought, shown = read_boolean(line) if kind == "boolean" else read_whole_phrase(line)
    asked = Asked(program, generation, documents_in(generation))
    patterns = [part for part in dict.fromkeys((*sought.words, *shown)) if isinstance(part, Pattern)]
    asked.ask([part for part in (sought.wanted, *patterns) if part is not None])
    wanted = None if sought.wanted is None else asked.documents(sought.wanted)
    words = frozenset(asked.words(shown))
    if sought.words:
        count, rows = ranked(asked, sought, wanted, most)
    else:
        count, rows = wanted.bit_count(), [(number, None) for number, _ in zip(numbers_of(wanted), range(most))]
    return Found(count, rows, words)


def ranked(asked, sought, wanted, most):
    """The count and the best documents of a set of them, or of all, by the words of a line."""
    words = asked.words(sought.words)
    if len(words) > MOST_WORDS:
        more = [part for part in sought.words if isinstance(part, Pattern)]
        which = f"{more[0].text.decode('utf-8', 'replace')} and the rest stand for" if more else "these are"
        refuse(f"{which} {len(words)} words, and {MOST_WORDS} can be ranked; write more letters, or ask with --boolean")
    rows, count = [], 0
    seen = bytearray(asked.last // 8 + 1)
    chosen = wanted.to_bytes(len(seen), "little") if wanted is not None else None
    if words:
        cut = [] if chosen else [b".set maxdocs %d" % most]
        lines = [b".set query ranked", *cut, checked_line(b" ".join(words))]
        with asked.program.ask("query", asked.generation.name, lines) as session:
            for row in session.rows():
                number, score = map(int, row.split(b" "))
                bit = 1 << (number & 7)
                if chosen is None or chosen[number >> 3] & bit:
                    count += 1
                    seen[number >> 3] |= bit
                    if len(rows) < most:
                        rows.append((number, score))
            if chosen is None:
                count = session.count
    if sought.each:
        # Documents of a Boolean line that have none of its words come behind those that have one.
        rest = wanted & ~int.from_bytes(seen, "little")
        rows += [(number, None) for number, _ in zip(numbers_of(rest), range(most - len(rows)))]
        count += rest.bit_count()
    return count, rows


def texts_of(program, generation, records):
    """The bytes of documents, by their numbers."""
    lines = {number: finding_line(*record) for number, record in records.items()}
    asked = [(number, line) for number, line in lines.items() if line and len(line) <= 1024]
    texts = {}
    if asked:
        with program.ask("query", generation.name, [b".set mode text", *(line for _, line in asked)]) as session:
            for wanted, _ in asked:
                for number, data in session.documents():
                    if number == wanted:
                        texts[number] = data
    for number in records:
        if number not in texts:
            texts[number] = program.document(generation.name, number)
    return texts


def clean(text):
    """A text for a line of a terminal: no control signs, and no bytes that are no text."""
    return CONTROLS.sub(lambda sign: " " if sign[0] == "\t" else "\ufffd" if sign[0] >= "\ud800" else "", text)


def is_one(token, words):
    return token.encode("utf-8", "surrogateescape").lower() in words


def lines_with(data, words):
    """The first lines of a document that have one of the words."""
    lines = []
    for line in data.split(b"\n"):
        text = line.decode("utf-8", "surrogateescape")
        if any(is_one(token[0], words) for token in TOKEN.finditer(text)):
            lines.append(text)
            if len(lines) == SHOWN_LINES:
                break
    return lines


def cut(text, words, width):
    """A line that fits in so many signs, with the first of its words in it."""
    text = text.strip()
    if len(text) <= width:
        return text
    place = next((token.start() for token in TOKEN.finditer(text) if is_one(token[0], words)), 0)
    start = max(0, min(place - width // 3, len(text) - width))
    return ("..." if start else "") + text[start : start + width] + ("..." if start + width < len(text) else "")


def marked(text, words, bold):
    """A line for the output, its words bold where that is wanted."""
    if not bold:
        return clean(text)
    pieces, place = [], 0
    for token in TOKEN.finditer(text):
        if is_one(token[0], words):
            pieces += [clean(text[place : token.start()]), BOLD, clean(token[0]), PLAIN]
            place = token.end()
    return "".join(pieces) + clean(text[place:])


def print_found(found, records, texts):
    """The rows for people: number, day, sender and subject, or the path of what is no mail, and lines below."""
    bold = sys.stdout.isatty() and os.environ.get("TERM", "dumb") != "dumb"
    width = min(WIDEST, columns() - 10) if bold else WIDEST
    out = []
    for number, _ in found.rows:
        row = records[number][0]
        mail = row.message_id or row.date or row.sender or row.subject
        about = [row.date[:10], row.sender, row.subject] if mail else [row.path.decode("utf-8", "surrogateescape")]
        out.append("  ".join([str(number), *(marked(text, found.words, bold) for text in about if text)]))
        out += ["    " + marked(cut(line, found.words, width), found.words, bold) for line in lines_with(texts[number], found.words)]
    out.append(f"= {found.count}")
    write_whole(1, "".join(line + "\n" for line in out).encode("utf-8", "replace"))


def print_json(found, records, texts):
    """The answer as one value of JSON."""
    rows = []
    for number, score in found.rows:
        row = records[number][0]
        texts_of_row = {"date": row.date, "from": row.sender, "subject": row.subject, "message_id": row.message_id}
        lines = [line.strip() for line in lines_with(texts[number], found.words)]
        rows.append({"number": number, "score": score, **{name: readable(text) for name, text in texts_of_row.items()},
                     "path": row.path.decode("utf-8", "surrogateescape"), "lines": [readable(line) for line in lines]})
    write_whole(1, json.dumps({"count": found.count, "rows": rows}, indent=1).encode() + b"\n")


def readable(text):
    """A text in which bytes that are no UTF-8 are replaced."""
    return text.encode("utf-8", "surrogateescape").decode("utf-8", "replace")


def find_and_print(archive, start, line, options):
    """Finds and prints; `start` makes the program that is asked."""
    with archive.reading() as generation:
        program = start()
        kind = "boolean" if options.boolean else "phrase" if options.phrase else "ranked"
        found = find(program, generation, line, kind, options.rows)
        if options.count:
            write_whole(1, b"%d\n" % found.count)
            return
        records = records_of(generation, [number for number, _ in found.rows])
        texts = texts_of(program, generation, records)
        (print_json if options.json else print_found)(found, records, texts)


def record_of(generation, number):
    """The row and the origin of a document."""
    records = records_of(generation, [number])
    if number not in records:
        raise Refusal(REFUSED, f"there is no document {number}; the last one is {documents_in(generation)}")
    return records


def document(archive, start, number):
    """The bytes of a document."""
    with archive.reading() as generation:
        data = texts_of(start(), generation, record_of(generation, number))[number]
        if data is None:
            raise Refusal(FAILED, f"{generation.path('')}: document {number} could not be read")
        return data


def print_document(data):
    """A document as it is; in a terminal without the control signs that would act on it."""
    if sys.stdout.isatty():
        lines = data.decode("utf-8", "surrogateescape").splitlines()
        data = "".join(clean(line.expandtabs()) + "\n" for line in lines).encode("utf-8", "replace")
    write_whole(1, data)
