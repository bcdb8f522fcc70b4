"""Archives in folders of their own, messages with known documents, and runs of mg-archive, for the modules that try it."""

import os
import pathlib
import re
import subprocess
import sys

sys.path.insert(0, str(pathlib.Path(__file__).parent / "reference"))

from kinds import Draws
from texts import Collection
from transcripts import tools

VOCABULARY = b"the crane silt winch north basin dredging dredger dredged berth harbour gull ice rope tide".split()
PEOPLE = [b"Mara Lindqvist <mara@harbour.example>", b"Jan de Vries <jan@dredge.example>", "Ines Valdés <ines@harbour.example>".encode()]
# What mg sorts in. A small pool, so that a program with its checks in it is not slow.
POOL = ["--budget", "4096"]


class Message:
    """A message of an mbox or a Maildir, and the document that it is to become."""

    def __init__(self, number, draws):
        self.sender = PEOPLE[draws.below(len(PEOPLE))]
        self.day = b"2023-%02d-%02d" % (1 + number // 10 % 12, 1 + number % 10 * 2)
        year, month, day = self.day.split(b"-")
        names = b"Jan Feb Mar Apr May Jun Jul Aug Sep Oct Nov Dec".split()
        self.date = b"%d %s %s 11:%02d:00 +0000" % (int(day), names[int(month) - 1], year, number % 60)
        # Some have a word by which mg finds the message, and some have none.
        self.identity = b"<%s%d.%d@harbour.example>" % (b"" if number % 2 else b"2023000", number, number * number)
        self.subject = b" ".join(draws.one_of(VOCABULARY) for _ in range(2))
        lines = [b" ".join(draws.one_of(VOCABULARY) for _ in range(1 + draws.below(6))) for _ in range(1 + draws.below(3))]
        self.body = b"".join(line.capitalize() + b".\n" for line in lines)

    def source(self):
        """The message, its fields in another order than the document has them."""
        return b"Message-ID: %s\nX-Note: unseen\nSubject: %s\nDate: %s\nFrom: %s\n\n%s" % (
            self.identity, self.subject, self.date, self.sender, self.body,
        )

    def document(self):
        return b"From: %s\nDate: %s\nSubject: %s\nMessage-ID: %s\n\n%s" % (
            self.sender, self.date, self.subject, self.identity, self.body,
        )


def messages(count, seed=60, first=1):
    draws = Draws(seed)
    return [Message(number, draws) for number in range(first, first + count)]


def mbox(found):
    return b"".join(b"From x@harbour.example Fri Mar  3 11:12:00 2023\n%s\n" % message.source() for message in found)


class Archives:
    """A folder with sources and archives, in which mg-archive is run."""

    def __init__(self, suite, folder):
        self.suite = suite
        self.folder = pathlib.Path(folder)
        self.program = tools(suite) / "mg-archive"

    def file(self, name, content=b""):
        path = self.folder / name
        path.parent.mkdir(parents=True, exist_ok=True)
        path.write_bytes(content)
        return name

    def run(self, *words, given=b"", **others):
        """The program's status, output and error output."""
        run = subprocess.run([self.program, *words], cwd=self.folder, input=given, capture_output=True, timeout=300, **others)
        return run.returncode, run.stdout, run.stderr

    def add(self, archive, *words, **others):
        return self.run(archive, "add", *POOL, *words, **others)

    def check(self, name, got, wanted):
        self.suite.check(f"mg-archive: {name}", got, wanted)

    def added(self, name, archive, counts, *words):
        """An addition says how many documents came, were known, and are there now."""
        new, known, all_of_them = counts
        told = b"added %d\nknown %d\ndocuments %d\n" % (new, known, all_of_them)
        self.check(name, self.add(archive, *words), (0, told, b""))

    def refused(self, name, status, told, *words, **others):
        """The words are refused with this status, and with a line that has this text."""
        found = self.run(*words, **others)
        fits = found[2].startswith(b"mg-archive: ") and found[2].count(b"\n") == 1 and told in found[2]
        self.check(name, (found[0], found[1], fits or found[2]), (status, b"", True))

    def set_of(self, archive):
        """The name of the set that answers now, from the archive's folder."""
        return (self.folder / archive / "current").read_text().rstrip("\n")

    def decoded(self, archive):
        """The documents of the set, printed by mg itself."""
        name = os.path.join(archive, self.set_of(archive))
        out = subprocess.run([self.suite.program, "decode", name], cwd=self.folder, capture_output=True, timeout=300).stdout
        return out.split(b"\x02")[:-1]

    def holds(self, name, archive, documents):
        """The set has these documents, its table as many rows, and nothing of an addition is left."""
        self.check(f"{name}: the documents", self.decoded(archive), documents)
        table = (self.folder / archive / (self.set_of(archive) + ".table")).read_bytes()
        numbers = [line.split(b"\t")[0] for line in table.splitlines()]
        self.check(f"{name}: the table's numbers", numbers, [b"%d" % number for number in range(1, len(documents) + 1)])

    def entries(self, archive):
        return sorted(os.listdir(self.folder / archive))


def collection(documents):
    """What the reference knows of these documents."""
    return Collection(b"".join(document + b"\x02" for document in documents))


def words_of(text):
    return [word.lower() for word in re.findall(rb"[0-9A-Za-z\x80-\xff]{1,255}", text)]
