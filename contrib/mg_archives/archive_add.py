"""An addition to an archive: what is new is collected, built, merged with what was there, checked, and made current."""

import dataclasses
import os
import re
import shutil
import stat
import time

from mg_archives import maildirs
from mg_archives.archive_folder import is_within_archive, remove
from mg_archives.archive_origins import Known, origin_of, place_in_maildir
from mg_archives.archive_program import BeyondLimit, Program, beyond
from mg_archives.choices import Tally
from mg_archives.documents import Odd, Reader, check_folder, check_given, places_of
from mg_archives.messages import fields_of, name_row
from mg_archives.progress import Progress
from mg_archives.refusals import FAILED, Refusal
from mg_archives.sources import PIPES, STANDARD_INPUT
from mg_archives.trees import Tree
from mg_archives.writing import Output, write_documents

PASSED_OVER = "passed over"
STANDS = re.compile(rb"stands ([0-9]+) documents [0-9]+ bytes\n")
READ_BY_MERGE = (".words", ".nonwords", ".text", ".places", ".lex", ".post")
TABS = re.compile(r"[\t\n]")


@dataclasses.dataclass
class Added:
    """What an addition did: how many documents came, how many were known, and how many the archive has now."""

    tally: Tally
    known: int = 0
    documents: int = 0


class NewReader(Reader):
    """Reads only messages whose Message-ID is not known; the others are not even decoded."""

    def __init__(self, choices, tally, known):
        super().__init__(choices, tally)
        self.known = known
        self.passed = 0

    def left_out(self, name, why):
        if why != PASSED_OVER:
            super().left_out(name, why)

    def message(self, data, row, line=1):
        try:
            name_row(row, fields_of(data)[0])
        except Exception:  # strange fields are the library's to read, which takes such a message as it is
            pass
        if row.message_id and row.message_id in self.known.identities:
            self.passed += 1
            raise Odd(PASSED_OVER)
        return super().message(data, row, line)


class Collecting:
    """The documents of sources that an archive does not have."""

    def __init__(self, choices, tally, known, leave):
        self.tally = tally
        self.known = known
        self.leave = leave
        self.reader = NewReader(choices, tally, known)
        # The size and time of the file that is read now.
        self.state = None

    def sources(self, kind, names):
        """Pairs of a document and its row."""
        if kind == "mbox":
            for name in names:
                check_given(name)
            for name in names:
                yield from self.reader.mailbox(name)
            return
        if kind == "files":
            for name in names:
                check_given(name)
            paths = names
        else:
            for name in names:
                check_folder(name)
            paths = self.paths(kind, names)
        if kind == "maildir":
            yield from self.reader.each(self.unread_mail(paths), self.reader.mail_file)
        else:
            yield from self.reader.each(self.changed_files(paths), self.reader.file)

    def paths(self, kind, names):
        """The files below folders; those of other archives are passed by."""
        if kind == "maildir":
            for name in names:
                yield from maildirs.mail_files(name)
            return
        tree = Tree(self.tally, places_of(self.leave))
        for name in names:
            for path in tree.files(name):
                if is_within_archive(path):
                    self.tally.made += 1
                else:
                    yield path

    def unread_mail(self, paths):
        """The files of mail that were not added under this name, whatever flags it has now."""
        for path in paths:
            if place_in_maildir(path) in self.known.places:
                self.reader.passed += 1
            else:
                yield path

    def changed_files(self, paths):
        """The files that were not added with this size and time."""
        for path in paths:
            self.state = state_of(path)
            if self.state is not None and self.known.has_file(path, self.state):
                self.reader.passed += 1
            else:
                yield path

    def new(self, kind, names, origins):
        """The pairs that are new; the origin of each is written."""
        for data, row in self.sources(kind, names):
            origin = origin_of(data, row, self.state)
            if self.known.has(row, origin):
                self.reader.passed += 1
                continue
            self.known.take(row, origin)
            origins.write(origin.line())
            yield data, row


def state_of(path):
    """The size and time of a plain file; none of anything else."""
    try:
        found = os.stat(path)
    except OSError:
        return None
    return (found.st_size, found.st_mtime_ns) if stat.S_ISREG(found.st_mode) else None


def whole_name(name):
    """The name of a source as it stays true in other folders."""
    return name if name == STANDARD_INPUT or name.startswith(PIPES) else os.path.abspath(name)


def add(archive, kind, names, choices, budget=None):
    """Adds what is new in these sources. `budget` is what mg may sort in, in bytes, if it is not what mg takes itself."""
    names = [whole_name(name) for name in names]
    with archive.adding() as addition:
        old = addition.old
        added = Added(Tally())
        program = Program(archive.root, addition.lock)
        collect(archive, addition, (kind, names), choices, added)
        if added.tally.documents:
            addition.clear()
            build(program, addition, [] if budget is None else ["--budget", str(budget)])
            check(program, added.documents)
            extend(old, ".table", addition.path("new.table"), addition.path("set.table"))
            note(addition, (kind, names), added)
            for name in ("new", "new.table"):
                remove(addition.path(name))
            addition.publish()
    return added


def collect(archive, addition, sources, choices, added):
    """Writes what is new into a collection and its table, and the origins of all documents."""
    known = Known(addition.old)
    collecting = Collecting(choices, added.tally, known, [os.fsencode(archive.root)])
    first = known.documents + 1
    progress = Progress(added.tally)
    new = [os.fsencode(addition.path(name)) for name in ("new", "new.table")]
    with open(addition.path("set.origins"), "wb") as origins, Output(*new) as output:
        copy_into(addition.old, ".origins", origins)
        try:
            write_documents(collecting.new(*sources, origins), output, added.tally, first, progress)
        finally:
            progress.clear()
        output.finish()
    added.known = collecting.reader.passed
    added.documents = known.documents


def build(program, addition, options):
    """Builds a set of what is new, and merges it behind the old one."""
    size = os.path.getsize(addition.path("new"))
    try:
        if addition.old is None:
            program.make(["build", "adding/new", "adding/set", *options], "building", 2 * size)
            return
        program.make(["build", "adding/new", "adding/part", *options], "building", 2 * size)
    except BeyondLimit as error:
        raise beyond("what is new", error, "add fewer sources at a time") from error
    folder = addition.path("")
    whole = read_by_merge(os.path.dirname(addition.old.path("")), "set") + read_by_merge(folder, "part")
    try:
        program.make(["merge", addition.old.name, "adding/part", "adding/set"], "merging", whole)
    except BeyondLimit as error:
        raise beyond("the archive", error, "it is as it was; add this to another archive") from error
    for name in os.listdir(folder):
        if name.startswith("part."):
            remove(addition.path(name))


def read_by_merge(folder, name):
    """How many bytes a merge reads of a set."""
    return sum(os.path.getsize(os.path.join(folder, name + ending)) for ending in READ_BY_MERGE)


def check(program, documents):
    """Asks mg whether the new set stands for as many documents as its table has."""
    folder = os.path.join(program.root, "adding")
    # A check reads some parts twice: on small sets five thirds of all bytes were seen.
    size = sum(os.path.getsize(os.path.join(folder, name)) for name in os.listdir(folder) if name.startswith("set."))
    told = STANDS.fullmatch(program.make(["check", "adding/set"], "checking", size * 5 // 3))
    if not told or int(told[1]) != documents:
        raise Refusal(FAILED, f"the new set does not have the {documents} documents of its table; the archive is as it was")


def copy_into(old, ending, file):
    """Copies what the old generation has of a kind, if there is one."""
    if old is not None:
        with open(old.path(ending), "rb") as source:
            shutil.copyfileobj(source, file)


def extend(old, ending, new, target):
    """Writes the old generation's lines and the new ones behind them, which are numbered on."""
    with open(target, "wb") as file, open(new, "rb") as source:
        copy_into(old, ending, file)
        shutil.copyfileobj(source, file)


def note(addition, sources, added):
    """Writes a line about this addition behind those of the earlier ones."""
    kind, names = sources
    shown = " ".join(name.decode("utf-8", "surrogateescape") for name in names[:10]) + (" .." if len(names) > 10 else "")
    now = time.strftime("%Y-%m-%dT%H:%M:%S%z")
    with open(addition.path("set.added"), "wb") as file:
        copy_into(addition.old, ".added", file)
        line = f"{now}\t{added.tally.documents}\t{added.tally.bytes}\t{kind}\t{TABS.sub(' ', shown)}\n"
        file.write(line.encode("utf-8", "surrogateescape"))
