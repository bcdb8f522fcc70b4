"""Sessions over archives of several sets: mg-shards answers as one collection would.

The sets are kept apart by a program in place of mg that refuses to merge more than a few documents. What is wanted comes
from the reference over the joined collection, and for Boolean sessions from `mg scan` of it too.
"""

import os
import pathlib
import select
import shutil
import subprocess
import sys

sys.path.insert(0, str(pathlib.Path(__file__).parent / "reference"))

import patterns
import phrases
from files import K
from kinds import Draws, cases, session as drawn_session
from queries import Refused, ranked
from sessions import Settings, command, phrase_session, reply, serve, session, wild_session
from texts import Collection
from transcripts import ROOT, fresh_folder

# mg, but for the most documents of a merged set, which the variable LIMIT tells; every run is written to the file RUNS.
LIMITED = """#!/bin/sh
[ -z "$RUNS" ] || echo "$*" >> "$RUNS"
documents() { od -An -tu4 --endian=big -j8 -N4 "$1.head"; }
if [ "$1" = merge ] && [ -n "$LIMIT" ] && [ $(($(documents "$2") + $(documents "$3"))) -gt "$LIMIT" ]; then
    echo 'mg: more than 16777216 documents' >&2
    exit 9
fi
exec "$REAL" "$@"
"""


class Tool:
    """mg-shards in a folder of its own, beside a program in place of mg."""

    def __init__(self, suite, limit=None):
        self.folder = suite.folder / "limited"
        self.folder.mkdir(exist_ok=True)
        self.launcher = self.folder / "mg-shards"
        if not self.launcher.exists():
            self.launcher.symlink_to(ROOT / "contrib" / "mg-shards")
        self.put_mg(LIMITED)
        self.limit = limit
        self.suite = suite
        self.environment = {**os.environ, "REAL": str(suite.program), "LIMIT": str(limit or ""), "RUNS": ""}

    def put_mg(self, text):
        mg = self.folder / "mg"
        mg.write_text(text)
        mg.chmod(0o755)

    def run(self, words, given=b"", **streams):
        """The status, the output and the error output."""
        source = {} if "stdin" in streams else {"input": given}
        run = subprocess.run([self.launcher, *words], cwd=self.suite.folder, env=self.environment, timeout=600,
                             **{"stdout": subprocess.PIPE, "stderr": subprocess.PIPE, **source, **streams})
        return run.returncode, run.stdout, run.stderr

    def build(self, collection, archive, *words):
        """An archive in a folder that was not there, with one job at a time and small pools."""
        shutil.rmtree(self.suite.folder / archive, ignore_errors=True)
        return self.run(["build", collection, archive, "--budget", "4096", "--jobs", "1", *words])

    def rows(self, archive):
        """The lines of the list, each in columns."""
        return [line.split("\t") for line in (self.suite.folder / archive / "sets").read_text().splitlines()]


def wanted_session(collection, data, sets):
    """A session of the reference, with ranked lines refused over several sets."""
    now = Settings()
    refusal = b"? ranked lines need one set, not %d: a score needs the counts of all documents\n" % sets

    def answer(line):
        nonlocal now
        if line.startswith(b"."):
            told = command(line, now)
            if isinstance(told, Settings):
                now = told
                return b""
            return None if told == "quit" else b"? bad command\n"
        if not now.ranked or sets == 1:
            return reply(collection, now, line)
        try:
            ranked(line)
        except Refused as refused:
            return str(refused).encode() + b"\n"
        return refusal

    return serve(data, answer)


def boolean_lines(draws, collection):
    """A drawn session without ranked lines."""
    return drawn_session(draws, collection, 80).replace(b".set query ranked", b".set mode text")


def put_archive(tool, collection, shards):
    """An archive of a set a shard; how many there are."""
    tool.suite.file("text", collection)
    status = tool.build("text", "several", "--shards", str(shards))
    tool.suite.check("an archive of several sets", (status[0], status[2]), (0, b""))
    return len(tool.rows("several"))


def kinds(suite):
    """Drawn sessions over each kind of collection, of each tool."""
    tool = Tool(suite, 1)
    several = 0
    for seed, (name, collection, _) in enumerate(cases(), 1):
        sets = put_archive(tool, collection, 2 + seed % 4)
        several += sets > 1
        whole = Collection(collection)
        lines = boolean_lines(Draws(seed), collection)
        got = tool.run(["query", "several"], lines)
        suite.check(f"{name}: query of {sets} sets", got, (0, session(whole, lines), b""))
        suite.check(f"{name}: scan", got, suite.run(["scan", "text"], lines))
        lines = drawn_session(Draws(seed + 100), collection, 80)
        suite.check(f"{name}: query of {sets} sets, some lines ranked", tool.run(["query", "several"], lines), (0, wanted_session(whole, lines, sets), b""))
        lines = phrases.spoken(Draws(seed), collection, 40)
        suite.check(f"{name}: phrase of {sets} sets", tool.run(["phrase", "several"], lines), (0, phrase_session(whole, lines), b""))
        lines = patterns.drawn(Draws(seed), collection, 40)
        suite.check(f"{name}: wild of {sets} sets", tool.run(["wild", "several"], lines), (0, wild_session(whole, lines), b""))
    suite.check("kinds with several sets", several, 11)


def statuses(suite):
    """Streams that fail, and sets that are missing, damaged, or not those of the list; what was printed is the beginning of the answer."""
    tool = Tool(suite, 1)
    put_archive(tool, K, 3)
    folder = suite.folder / "several"
    with open("/dev/full", "wb") as full:
        got = tool.run(["query", "several"], b"cat\n", stdout=full)
    suite.check("a full output", got, (4, None, b"mg-shards: the output could not be written\n"))
    reader, writer = os.pipe()
    os.close(reader)
    got = tool.run(["query", "several"], b"cat\n", stdout=writer)
    os.close(writer)
    suite.check("a reader that went away", (got[0], got[2]), (4, b"mg-shards: the output could not be written\n"))
    with open(suite.folder / "written", "wb") as unread:
        got = tool.run(["query", "several"], stdin=unread)
    suite.check("an input that cannot be read", got, (3, b"", b"mg-shards: the input could not be read\n"))
    second = (folder / "sets").read_text().splitlines()[1].split("\t")[3]
    (folder / f"{second}.text").write_bytes(b"")
    told = f"mg-shards: {folder}/{second}: mg: damaged: part text at 0: found 0, wanted "
    lines = b"the\n.set mode text\nsat | dog\n"
    whole = b"1\n2\n= 2\n-- 1\nthe cat sat\n\x02\n-- 2\nthe dog\n\x02\n-- 3\nCat, cat & dog!\n\x02\n= 3\n"
    for words, given, least, most in [(["decode", "several"], b"", b"the cat sat\n\x02", K), (["check", "several", "--jobs", "1"], b"", b"", b""),
                                      (["query", "several"], lines, whole[: whole.index(b"-- 2")], whole)]:
        status, out, err = tool.run(words, given)
        begins = out.startswith(least) and most.startswith(out) and (out != most or not most)
        suite.check(f"a damaged set: {words[0]}", (status, begins or out, err.decode()[: len(told)]), (6, True, told))
    suite.check("a damaged set: wild", tool.run(["wild", "several"], b"*at\n"), (0, b"+ cat 2\n+ sat 1\n1\n3\n= 2\n", b""))
    (folder / f"{second}.head").unlink()
    missing = f"mg-shards: {folder}/{second}: nothing is built under this name\n".encode()
    suite.check("a missing set", tool.run(["phrase", "several"], b"cat\n"), (5, b"", missing))
    list_of = (folder / "sets").read_text()
    for name, text in [("fewer documents", list_of.replace("\t1\t", "\t2\t")), ("no numbers", "a\tb\tc\td\n"), ("no set", "")]:
        (folder / "sets").write_text(text)
        status, out, err = tool.run(["query", "several"], b"cat\n")
        suite.check(f"a list with {name}", (status, out, err.decode().startswith(f"mg-shards: {folder}/sets:")), (6, b"", True))


def by_hand(suite):
    """Each line is answered before the next is written."""
    tool = Tool(suite, 1)
    put_archive(tool, K, 3)
    for name, rows in [("query", [(b"cat", b"1\n3\n= 2\n"), (b".set maxdocs 1\ncat", b"1\n= 2\n"), (b"cat &", b"? syntax at 5\n")]),
                       ("phrase", [(b"cat", b"1 1\n3 2\n= 2\n")]), ("wild", [(b"?", b"? bad pattern at 0\n"), (b"*o*", b"? bad pattern at 2\n")])]:
        process = subprocess.Popen([tool.launcher, name, "several"], cwd=suite.folder, env=tool.environment, stdin=subprocess.PIPE, stdout=subprocess.PIPE, bufsize=0)
        for line, wanted in rows:
            process.stdin.write(line + b"\n")
            told = b""
            while len(told) < len(wanted) and select.select([process.stdout], [], [], 120)[0]:
                told += process.stdout.read(4096)
            suite.check(f"{name}: {line} by hand", told, wanted)
        process.stdin.write(b"cat")
        process.stdin.close()
        process.stdout.read()
        suite.check(f"{name} by hand: the end", process.wait(120), 0)


def long_input(suite):
    """An input of more than 2^32 bytes, and one of as many."""
    tool = Tool(suite, 1)
    put_archive(tool, K, 3)
    for tail, wanted in [(b"sat\n", (14, b"? line too long\n" * 2**12, b"mg-shards: the input is longer than 4294967296 bytes\n")), (b"", (0, b"? line too long\n", b""))]:
        process = subprocess.Popen([tool.launcher, "query", "several"], cwd=suite.folder, env=tool.environment, stdin=subprocess.PIPE, stdout=subprocess.PIPE, stderr=subprocess.PIPE)
        # Lines that are too long in the first, and one line in the second.
        page = b"x" * (2**20 - len(tail[-1:])) + tail[-1:]
        for _ in range(2**12):
            process.stdin.write(page)
        out, err = process.communicate(tail)
        suite.check(f"a long input and {tail}", (process.returncode, out, err), wanted)


PARTS = [kinds, statuses, by_hand]
SLOW = [long_input]
