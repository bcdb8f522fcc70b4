"""mg-archive find and show: every form of asking against a scan of the documents in Python, and documents in their sources."""

import bz2
import gzip
import json
import lzma
import os
import pathlib
import pty
import re
import select

from archiving import VOCABULARY, collection, mbox, messages, words_of
from queries import phrase_places
from weights import top

COUNT = 30
CORPUS = pathlib.Path("/usr/lib/python3.11/test/test_email/data")


class Scanned:
    """A document as a scan sees it: its number, message and terms."""

    def __init__(self, number, message):
        self.number = number
        self.message = message
        self.terms = words_of(message.document())

    def has(self, *words):
        return all(word.encode() in self.terms for word in words)

    def says(self, phrase):
        return phrase_places(words_of(phrase.encode()), self.terms) > 0

    def begins(self, beginning):
        return any(term.startswith(beginning.encode()) for term in self.terms)


def field(column, text):
    """Whether the words of a column have these words one after the other."""
    return phrase_places(words_of(text.encode()), words_of(column)) > 0


# What is asked, the words that rank, and which documents are the answer: those of them that have one of the words.
RANKED = [
    ("crane", "crane", lambda d: True),
    ("Crane SILT", "crane silt", lambda d: True),
    ("crane zebra", "crane zebra", lambda d: True),
    ("zebra", "zebra", lambda d: True),
    ("crane -silt", "crane", lambda d: not d.has("silt")),
    ("crane NOT silt", "crane", lambda d: not d.has("silt")),
    ("crane !silt -winch", "crane", lambda d: not d.has("silt") and not d.has("winch")),
    ("+crane silt", "crane silt", lambda d: d.has("crane")),
    ('"north basin"', "north basin", lambda d: d.says("north basin")),
    ("“north basin”", "north basin", lambda d: d.says("north basin")),
    ('crane "North, basin!"', "crane north basin", lambda d: d.says("north basin")),
    ('crane -"north basin"', "crane", lambda d: not d.says("north basin")),
    ("north-basin", "north basin", lambda d: d.says("north basin")),
    ("jan@dredge.example", "jan dredge example", lambda d: d.says("jan dredge example")),
    ("jan’s", "jan s", lambda d: d.says("jan s")),
    ("dredg*", "dredging dredger dredged dredge", lambda d: True),
    ("*ing silt", "dredging silt", lambda d: True),
    ("c*ne -dredg*", "crane", lambda d: not d.begins("dredg")),
    ("zeb*", "", lambda d: False),
    ("crane from:mara", "crane", lambda d: field(d.message.sender, "mara")),
    ("crane -from:mara", "crane", lambda d: not field(d.message.sender, "mara")),
    ('silt from:"de vries"', "silt", lambda d: field(d.message.sender, "de vries")),
    ("silt from:Valdés", "silt", lambda d: field(d.message.sender, "valdés")),
    ("silt FROM:lind*", "silt", lambda d: field(d.message.sender, "lindqvist")),
    ("silt subject:silt", "silt", lambda d: field(d.message.subject, "silt")),
    ("crane date:2023-02", "crane", lambda d: d.message.day.startswith(b"2023-02")),
    ("crane after:2023-02-07", "crane", lambda d: d.message.day >= b"2023-02-07"),
    ("crane before:2023-02-07", "crane", lambda d: d.message.day < b"2023-02-07"),
    ("crane date:2023-01-09..2023-02", "crane", lambda d: b"2023-01-09" <= d.message.day < b"2023-03"),
    ("crane date:..2023-01", "crane", lambda d: d.message.day < b"2023-02"),
    ("crane path:b.mbox", "crane", lambda d: d.number > 20),
    ("harbour id:7.49@harbour.example", "harbour", lambda d: d.number == 7),
]
# Lines with AND, OR or parentheses: documents that have none of the words come last, in the order of their numbers.
JOINED = [
    ("crane AND silt", "crane silt", lambda d: d.has("crane", "silt")),
    ("crane & silt", "crane silt", lambda d: d.has("crane", "silt")),
    ("crane OR winch", "crane winch", lambda d: d.has("crane") or d.has("winch")),
    ("crane|winch", "crane winch", lambda d: d.has("crane") or d.has("winch")),
    ("crane AND NOT silt", "crane", lambda d: d.has("crane") and not d.has("silt")),
    ("(crane OR winch) silt", "crane winch silt", lambda d: (d.has("crane") or d.has("winch")) and d.has("silt")),
    ("crane OR NOT silt", "crane", lambda d: d.has("crane") or not d.has("silt")),
    ("crane AND silt OR winch AND tide", "crane silt winch tide", lambda d: d.has("crane", "silt") or d.has("winch", "tide")),
    ('"north basin" OR dredg*', "north basin dredging dredger dredged dredge", lambda d: d.says("north basin") or d.begins("dredg")),
    ("from:jan OR crane", "crane", lambda d: field(d.message.sender, "jan") or d.has("crane")),
    ("-(crane OR silt) ice", "ice", lambda d: not d.has("crane") and not d.has("silt") and d.has("ice")),
]
# What has no word that ranks, and --boolean: the order of the numbers.
NUMBERED = [
    ([], "-silt", lambda d: not d.has("silt")),
    ([], "from:mara", lambda d: field(d.message.sender, "mara")),
    ([], "NOT from:mara date:2023-01", lambda d: not field(d.message.sender, "mara") and d.message.day < b"2023-02"),
    (["--boolean"], "crane silt", lambda d: d.has("crane", "silt")),
    (["--boolean"], "crane winch | silt", lambda d: d.has("crane", "winch") or d.has("silt")),
    (["--boolean"], "!crane & !(silt | winch)", lambda d: not (d.has("crane") or d.has("silt") or d.has("winch"))),
    (["--boolean"], "dredg* -silt", lambda d: d.begins("dredg") and not d.has("silt")),
    (["--boolean"], 'crane | "north basin" from:jan', lambda d: d.has("crane") or d.says("north basin") and field(d.message.sender, "jan")),
    (["--phrase"], "North basin", lambda d: d.says("north basin")),
    (["--phrase"], "crane OR -silt", lambda d: d.says("crane or silt")),
    (["--phrase"], "tide", lambda d: d.has("tide")),
]
REFUSED = [
    ("to:jan", b"to: is no field here; write the word alone"), ("since:2023", b"write after:DATE"), ("from: jan", b"without a blank"),
    ("tag:x y", b"(the fields are from:"), ("date:march", b"a date is 2023, 2023-03 or 2023-03-07"), ("after:2023..2024", b"a date is"),
    ("NEAR/3", b"mg has no nearness"), ("crane NEAR silt", b"write the words with AND"), ("cran~1", b"no likeness of words"),
    ("silt^2", b"no weights"), ("gr?y", b"? stands for no letter; write one *"), ("/crane.*/", b"a pattern is one word with one *"),
    ("/crane/", b"mg has no regular expressions"), ("d*g*", b"one word with one *"), ("*", b"a lone *"), ('"north bas*"', b"a phrase has whole words"),
    ("crane OR silt winch", b"write parentheses"), ("crane winch | silt", b"write parentheses"), ("crane OR", b"a word is missing at the end"),
    ("AND crane", b"AND stands between two words"), ("(crane", b"a parenthesis is not closed"), ("crane)", b"was not opened"),
    ('"crane', b"a quote is not closed"), ("...", b"no word is asked for"), ("a XOR b", b"write (a AND NOT b) OR (b AND NOT a)"),
    ("x" * 256, b"a word has at most 255 bytes"), (" ".join(f"w{n}" for n in range(65)), b"these are 65 words, and 64 can be ranked"),
    ('"' + "a " * 65 + '"', b"a phrase has at most 64 words"),
]


def expected(scanned, kept, words):
    """Pairs of a number and a score for the documents that are kept, in the order of the reference."""
    documents = collection([one.message.document() for one in scanned])
    rows = [row for row in top(documents, [word.encode() for word in words.split()], None)[0] if row[0] in kept]
    return [list(row) for row in rows]


def asked(case, line, *options):
    """What find answers as JSON: the count, pairs of a number and a score, and the rows."""
    status, out, err = case.run("mail", "find", "--json", "--rows", "1000", *options, "--", line)
    if status or err:
        return status, out, err
    answer = json.loads(out)
    return answer["count"], [[row["number"], row["score"]] for row in answer["rows"]], answer["rows"]


def filled(case):
    found = messages(COUNT)
    case.file("a.mbox", mbox(found[:20]))
    case.file("b.mbox", mbox(found[20:]))
    case.added("mail to be found", "mail", (20, 0, 20), "mbox", "a.mbox")
    case.added("more mail to be found", "mail", (10, 0, COUNT), "mbox", "b.mbox")
    return [Scanned(number, message) for number, message in enumerate(found, 1)]


def first_lines(document, words):
    """The first two lines that have one of the words."""
    return [line.strip().decode() for line in document.split(b"\n") if set(words_of(line)) & set(words)][:2]


def found_rows(case, scanned):
    """Every form of asking, its order and its scores by the reference."""
    for line, words, fits in RANKED:
        wanted = expected(scanned, {one.number for one in scanned if fits(one)}, words)
        case.check(f"find {line}", asked(case, line)[:2], (len(wanted), wanted))
    for line, words, fits in JOINED:
        kept = {one.number for one in scanned if fits(one)}
        first = expected(scanned, kept, words)
        wanted = first + [[number, None] for number in sorted(kept - {number for number, _ in first})]
        case.check(f"find {line}", asked(case, line)[:2], (len(wanted), wanted))
    for options, line, fits in NUMBERED:
        wanted = [[one.number, None] for one in scanned if fits(one)]
        case.check(f"find {options} {line}", asked(case, line, *options)[:2], (len(wanted), wanted))


def finding(case):
    scanned = filled(case)
    found_rows(case, scanned)
    for line, told in REFUSED:
        case.refused(f"find {line[:40]}", 1, told, "mail", "find", line)
    rows = asked(case, "crane dredg*")[2]
    words = [b"crane", *(word for word in VOCABULARY if word.startswith(b"dredg")), b"dredge"]
    for row in rows:
        message = scanned[row["number"] - 1].message
        wanted = {
            "lines": first_lines(message.document(), words), "from": message.sender.decode(), "subject": message.subject.decode(),
            "message_id": message.identity.decode(), "date": message.day.decode() + f"T11:{row['number']:02d}:00+00:00",
            "path": str(case.folder / ("a.mbox" if row["number"] <= 20 else "b.mbox")),
        }
        case.check(f"find: row {row['number']}", {name: row[name] for name in wanted}, wanted)
    case.check("find: rows with lines", any(len(row["lines"]) == 2 for row in rows), True)
    wanted = expected(scanned, range(COUNT + 1), "crane silt")
    status, out, err = case.run("mail", "find", "--rows", "3", "crane", "silt")
    shown = b""
    for number, _ in wanted[:3]:
        message = scanned[number - 1].message
        shown += b"%d  %s  %s  %s\n" % (number, message.day, message.sender, message.subject)
        shown += b"".join(b"    %s\n" % line.encode() for line in first_lines(message.document(), [b"crane", b"silt"]))
    case.check("find as people read it", (status, out, err), (0, shown + b"= %d\n" % len(wanted), b""))
    out = case.run("mail", "find", "crane", "silt")[1]
    case.check("find: ten rows", len(re.findall(rb"^\d+  ", out, re.M)), min(10, len(wanted)))
    case.check("find: the words as one", case.run("mail", "find", "crane silt")[1], out)
    case.check("find: a minus among the words", case.run("mail", "find", "--count", "crane", "-silt")[1],
               b"%d\n" % sum(one.has("crane") and not one.has("silt") for one in scanned))
    for options in [[], ["--boolean"]]:
        count = sum(one.has("crane") or one.has("silt") if not options else one.has("crane", "silt") for one in scanned)
        case.check(f"find --count {options}", case.run("mail", "find", "--count", *options, "crane", "silt")[:2], (0, b"%d\n" % count))


def many_words(case):
    """A pattern that stands for more words than can be ranked; without ranking it is answered."""
    case.file("words", b" ".join(b"w%02d" % number for number in range(70)))
    case.file("other", b"w00 crane")
    case.added("many words", "mail", (2, 0, 2), "files", "words", "other")
    case.refused("too many words of a pattern", 1, b"w* and the rest stand for 70 words, and 64 can be ranked", "mail", "find", "w*")
    case.check("the same in Boolean order", case.run("mail", "find", "--boolean", "--count", "w*")[:2], (0, b"2\n"))
    line = b" ".join(b"w%02d" % number for number in range(70))
    head, shown, end = case.run("mail", "find", "w6*")[1].split(b"\n", 2)
    case.check("a file has its path", head, b"1  " + os.fsencode(case.folder / "words"))
    piece = shown.removeprefix(b"    ...")
    case.check("a long line is cut where its word stands", (len(piece) <= 160, b"w60" in piece, piece in line, end), (True, True, True, b"= 1\n"))


def terminal(case, *words):
    """What the program prints in a terminal."""
    process, file = pty.fork()
    if process == 0:
        os.chdir(case.folder)
        os.environ["TERM"] = "xterm"
        os.execv(case.program, [str(case.program), *words])
    text = b""
    while select.select([file], [], [], 120)[0]:
        try:
            piece = os.read(file, 4096)
        except OSError:
            break
        if not piece:
            break
        text += piece
    os.waitpid(process, 0)
    os.close(file)
    return text.replace(b"\r\n", b"\n")


def bold(case):
    """In a terminal the words are bold, and signs that would act on the terminal are not printed."""
    case.file("a", b"The Crane, cranes and \x1b[31mred crane.\nnothing\n")
    case.added("a file for a terminal", "mail", (1, 0, 1), "files", "a")
    wanted = b"1  %s\n    The \x1b[1mCrane\x1b[0m, cranes and [31mred \x1b[1mcrane\x1b[0m.\n= 1\n" % os.fsencode(case.folder / "a")
    case.check("find in a terminal", terminal(case, "mail", "find", "crane"), wanted)
    case.check("show in a terminal", terminal(case, "mail", "show", "1"), b"The Crane, cranes and [31mred crane.\nnothing\n")
    case.check("show in a pipe", case.run("mail", "show", "1")[1], b"The Crane, cranes and \x1b[31mred crane.\nnothing\n")
    told = b"mg-archive: taken as single words: crane red (a phrase is written '\"crane red\"')\n"
    case.check("words that the shell took the quotes of", terminal(case, "mail", "find", "crane red")[: len(told)], told)
    out = terminal(case, "mail", "add", "--budget", "4096", "files", "a")
    case.check("progress is taken away", out.rpartition(b"\r")[2], b"added 0\nknown 1\ndocuments 1\n")


def showing(case):
    """Documents by their numbers: mail, files with the same words, and documents without a word."""
    found = messages(3)
    documents = [b"the crane\n", b"", b" ,\n", b"crane the\n", b"the crane\n", b"\xff\xfe crane"]
    for number, document in enumerate(documents):
        case.file(f"notes/{number}", document)
    case.file("a.mbox", mbox(found))
    case.added("files to be shown", "mail", (6, 0, 6), "folder", "notes")
    case.added("mail to be shown", "mail", (3, 0, 9), "mbox", "a.mbox")
    for number, document in enumerate(documents + [message.document() for message in found], 1):
        case.check(f"show {number}", case.run("mail", "show", str(number)), (0, document, b""))


def originals(case):
    """A message's own bytes: from mailboxes, compressed ones, Maildirs whose files were renamed, and files."""
    found = messages(9)
    texts = [message.source() for message in found]
    case.file("a.mbox", mbox(found[:2]))
    for message, (ending, pack) in zip(found[2:], [(".gz", gzip.compress), (".bz2", bz2.compress), (".xz", lzma.compress)]):
        case.file("b.mbox" + ending, pack(mbox(found[:1]) + mbox([message])))
    case.file("Mail/new/1.M1.host", texts[5])
    case.file("Mail/new/2.M1.host", texts[6].replace(b"\n", b"\r\n"))
    case.file("Mail/cur/3.M1.host:2,S", b"Subject: s\n\nno name of its own\n")
    case.added("mailboxes", "mail", (5, 3, 5), "mbox", "a.mbox", "b.mbox.gz", "b.mbox.bz2", "b.mbox.xz")
    case.added("a Maildir", "mail", (3, 0, 8), "maildir", "Mail")
    case.file("page", b"the crane\n")
    case.added("a file", "mail", (1, 0, 9), "--filter", "tr a-z A-Z", "files", "page")
    case.check("piped mail", case.add("mail", "mbox", "-", given=mbox(found[8:]))[1], b"added 1\nknown 0\ndocuments 10\n")
    wanted = [*texts[:6], texts[6].replace(b"\n", b"\r\n"), b"Subject: s\n\nno name of its own\n", b"the crane\n"]
    for number, text in enumerate(wanted, 1):
        case.check(f"show --original {number}", case.run("mail", "show", "--original", str(number)), (0, text, b""))
    case.refused("the original of piped mail", 3, b"came from standard input, which is gone; show 10 has it", "mail", "show", "--original", "10")
    os.rename(case.folder / "Mail/new/1.M1.host", case.folder / "Mail/cur/1.M1.host:2,RS")
    os.rename(case.folder / "Mail/new/2.M1.host", case.folder / "Mail/cur/9.other.host")
    for number in (6, 7):
        case.check(f"a renamed message {number}", case.run("mail", "show", "--original", str(number))[1], wanted[number - 1])
    case.file("a.mbox", mbox(found[8:] + found[1:2]))
    case.check("a mailbox that was written anew", case.run("mail", "show", "--original", "2")[1], texts[1])
    case.refused("a message that was taken out", 3, b"a.mbox: document 1 is not there any more; show 1 has it", "mail", "show", "--original", "1")
    case.file("page", b"the winch\n")
    case.refused("a file that was changed", 3, b"page: it has changed since; show 9 has it", "mail", "show", "--original", "9")
    os.remove(case.folder / "page")
    case.refused("a file that is gone", 3, b"page: document 9 is not there any more; show 9 has it", "mail", "show", "--original", "9")
    case.check("the document stays", case.run("mail", "show", "9")[:2], (0, b"THE CRANE\n"))


def real_mail(case):
    """Odd messages of Python's own tests in a Maildir: each comes once, is shown, and is printed from its source."""
    paths = sorted(path for path in CORPUS.glob("*.txt") if b"\0" not in path.read_bytes()) if CORPUS.is_dir() else []
    case.check("odd messages are installed (Debian's package libpython3.11-testsuite)", len(paths) > 30, True)
    texts = [path.read_bytes() for path in paths]
    (case.folder / "Mail/cur").mkdir(parents=True)
    for number, text in enumerate(texts):
        case.file(f"Mail/new/{1700000000 + number}.M1.host", text)
    status, out, _ = case.add("mail", "maildir", "Mail")
    counts = dict(line.split() for line in out.decode().splitlines())
    count = int(counts["added"])
    case.check("odd messages: added or known", (status, count + int(counts["known"])), (0, len(texts)))
    table = (case.folder / "mail/1/set.table").read_bytes().splitlines()
    identities = [line.split(b"\t")[4] for line in table]
    case.check("odd messages: no Message-ID twice", len(set(filter(None, identities))), len(list(filter(None, identities))))
    documents = case.decoded("mail")
    for number in range(1, count + 1, 5):
        source = int(re.search(rb"/(\d+)\.M1\.host\t", table[number - 1])[1]) - 1700000000
        case.check(f"odd messages: show {number}", case.run("mail", "show", str(number)), (0, documents[number - 1], b""))
        shown = case.run("mail", "show", "--original", str(number))
        case.check(f"odd messages: show --original {number}", shown, (0, texts[source], b""))


HERE = [finding, many_words, bold, showing, originals, real_mail]
