"""A session over several sets, as one over the joined collection: each line is asked of all sets, one answer is made of theirs.

Each set has its own running mg, which gets each line over a pipe. Where a line is a query, every mg answers it by a reply
that ends with its count, or refuses it by one line, and then all of them do. Replies are handed on as they come: nothing
is held but a page.
"""

import contextlib
import heapq
import itertools
import operator
import os
import re
import subprocess

from mg_archives.refusals import Refusal
from mg_archives.shards_archive import DAMAGED
from mg_archives.shards_plan import CLOSE
from mg_archives.shards_steps import refusal_of

INPUT_FAILED = 3
OUTPUT_FAILED = 4
TOO_LONG = 14
UNREAD = "the input could not be read"
UNWRITTEN = "the output could not be written"
LINE_LIMIT = 1024
INPUT_LIMIT = 1 << 32
MOST_LIMIT = 1 << 20
PAGE = 1 << 16


class Child:
    """A running mg over one set; `before` documents are in the sets before it."""

    def __init__(self, mg, tool, base, before):
        self.base = base
        self.before = before
        self.process = subprocess.Popen([mg, tool, base], stdin=subprocess.PIPE, stdout=subprocess.PIPE, stderr=subprocess.PIPE)
        self.out = self.process.stdout
        self.held = None

    def send(self, line):
        try:
            self.process.stdin.write(line)
            self.process.stdin.flush()
        except BrokenPipeError:
            self.fail()

    def line(self):
        """The next line of its output."""
        line, self.held = self.held or self.out.readline(), None
        if not line.endswith(b"\n"):
            self.fail()
        return line

    def fail(self):
        """Tells why the mg ended before its time."""
        self.close_input()
        while self.out.read(PAGE):
            pass
        told = self.process.stderr.read()
        run = subprocess.CompletedProcess([], self.process.wait(), None, told)
        refusal = refusal_of(run) if run.returncode else Refusal(DAMAGED, "mg ended before its time")
        raise Refusal(refusal.status, f"{self.base}: {refusal.text}")

    def terms(self):
        """The terms that match a pattern, each with the number of its documents."""
        while True:
            line = self.line()
            if not line.startswith(b"+ "):
                self.held = line
                return
            term, count = line[2:].split(b" ")
            yield term, int(count)

    def copy_document(self, write):
        """Hands on the bytes of a shown document, with the closing byte and the newline behind them."""
        while True:
            page = self.out.peek(PAGE)
            if not page:
                self.fail()
            end = page.find(CLOSE) + 1
            write(self.out.read(end or len(page)))
            if end:
                return write(self.line())

    def end(self):
        """Ends its input, and waits for it."""
        self.close_input()
        if self.out.read(1) or self.process.wait():
            self.fail()

    def close_input(self):
        with contextlib.suppress(BrokenPipeError):
            self.process.stdin.close()

    def kill(self):
        self.process.kill()
        self.process.wait()
        self.close_input()


def nothing(_):
    pass


def words_of(line):
    """The words of a command."""
    return [word for word in re.split(rb"[ \t]+", line) if word]


class Session:
    """Lines that are asked of all sets. `ask` is what a tool does with a line that is no command."""

    def __init__(self, children, write):
        self.children = children
        self.write = write

    def command(self, line):
        """What a line with a leading full stop does: `quit`, or nothing special."""
        return "quit" if words_of(line) == [b".quit"] else "query"

    def refused(self):
        """Hands on a refusal, which all of them have; tells whether there is one."""
        line = self.children[0].line()
        if not line.startswith(b"? "):
            self.children[0].held = line
            return False
        if any(child.line() != line for child in self.children[1:]):
            raise Refusal(DAMAGED, "the sets refuse a line for different reasons")
        self.write(line)
        return True

    def ask(self, line):
        for child in self.children:
            child.send(line + b"\n")
        if not self.refused():
            self.answer()

    def count(self, rows):
        """Hands on the rows of all sets by what is done with one, and the count of all documents."""
        total = 0
        for child in self.children:
            while not (line := child.line()).startswith(b"= "):
                rows(child, line)
            total += int(line[2:])
        self.write(b"= %d\n" % total)


class Phrases(Session):
    """Lines of `mg phrase`."""

    def answer(self):
        def row(child, line):
            number, places = line.split(b" ")
            self.write(b"%d %s" % (int(number) + child.before, places))

        self.count(row)


class Patterns(Session):
    """Lines of `mg wild`."""

    def answer(self):
        found = heapq.merge(*(child.terms() for child in self.children))
        for term, counts in itertools.groupby(found, operator.itemgetter(0)):
            self.write(b"+ %s %d\n" % (term, sum(count for _, count in counts)))
        self.count(lambda child, line: self.write(b"%d\n" % (int(line) + child.before)))


class Queries(Session):
    """Lines of `mg query`, and their commands."""

    def __init__(self, children, write):
        super().__init__(children, write)
        self.ranked = False
        self.mode = b"docnums"
        self.most = None

    def command(self, line):
        match words_of(line):
            case [b".quit"]:
                return "quit"
            case [b".set", b"query", (b"boolean" | b"ranked") as kind]:
                self.ranked = kind == b"ranked"
            case [b".set", b"mode", (b"docnums" | b"text" | b"count") as mode]:
                self.mode = mode
            case [b".set", b"maxdocs", b"all"]:
                self.most = None
            case [b".set", b"maxdocs", number] if re.fullmatch(rb"[0-9]{1,7}", number) and 1 <= int(number) <= MOST_LIMIT:
                self.most = int(number)
            case _:
                self.write(b"? bad command\n")
                return "done"
        for child in self.children:
            child.send(line + b"\n")
        return "done"

    def ask(self, line):
        if self.ranked:
            self.refuse_ranked(line)
        else:
            super().ask(line)

    def refuse_ranked(self, line):
        """Asks the first set for its count, since only mg tells whether it would have refused the line."""
        child = self.children[0]
        child.send(b".set mode count\n%s\n.set mode %s\n" % (line, self.mode))
        told = child.line()
        if told.startswith(b"? "):
            self.write(told)
        else:
            count = len(self.children)
            self.write(b"? ranked lines need one set, not %d: a score needs the counts of all documents\n" % count)

    def answer(self):
        left = self.most

        def row(child, line):
            nonlocal left
            write = nothing if left == 0 else self.write
            if left:
                left -= 1
            if line.startswith(b"-- "):
                write(b"-- %d\n" % (int(line[3:]) + child.before))
                child.copy_document(write)
            else:
                write(b"%d\n" % (int(line) + child.before))

        self.count(row)


SESSIONS = {"query": Queries, "phrase": Phrases, "wild": Patterns}


def read_line(file, most):
    try:
        return file.readline(most)
    except OSError as error:
        raise Refusal(INPUT_FAILED, UNREAD) from error


def lines_of(file):
    """The lines of the input without their newlines, None for one that is too long. A last one needs no newline."""
    count = 0
    while line := read_line(file, LINE_LIMIT + 2):
        count += len(line)
        ends = line.endswith(b"\n")
        is_long = len(line) - ends > LINE_LIMIT
        is_cut = not ends and len(line) == LINE_LIMIT + 2
        while is_cut and (rest := read_line(file, PAGE)):
            count += len(rest)
            is_cut = not rest.endswith(b"\n")
        if count > INPUT_LIMIT:
            raise Refusal(TOO_LONG, f"the input is longer than {INPUT_LIMIT} bytes")
        yield None if is_long else line.removesuffix(b"\n")


def serve(session, file, flush):
    """Answers the lines of a file, each before the next is read."""
    for line in lines_of(file):
        if line is None:
            session.write(b"? line too long\n")
        elif line.removesuffix(b"\r").strip(b" \t"):
            does = session.command(line.removesuffix(b"\r")) if line.startswith(b".") else "query"
            if does == "quit":
                break
            if does == "query":
                session.ask(line)
        flush()
    for child in session.children:
        child.end()
    flush()


def guarded_output(call):
    """A call that writes to the standard output, with its failures told by their status."""

    def guard(*given):
        try:
            call(*given)
        except OSError as error:
            # What is left in buffers goes nowhere when Python ends.
            os.dup2(os.open(os.devnull, os.O_WRONLY), 1)
            raise Refusal(OUTPUT_FAILED, UNWRITTEN) from error

    return guard


def standard_file(number, mode, status, text):
    """The standard input or output, which may be closed."""
    try:
        return open(number, mode, closefd=False)
    except OSError as error:
        raise Refusal(status, text) from error


def ask_all(mg, tool, bases):
    """A session of a tool over sets, each with the documents before it."""
    file = standard_file(0, "rb", INPUT_FAILED, UNREAD)
    out = standard_file(1, "wb", OUTPUT_FAILED, UNWRITTEN)
    children = []
    try:
        for base, before in bases:
            children.append(Child(mg, tool, base, before))
        serve(SESSIONS[tool](children, guarded_output(out.write)), file, guarded_output(out.flush))
    finally:
        for child in children:
            child.kill()
