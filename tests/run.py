"""The black-box suite: drives the built program through real files and pipes.

    python3 tests/run.py [--slow] [--seed N] [--only NAME]... bin/mg

Expected outputs are rows worked by hand or stored ones, which a reference wrote that shares no
code with the program (tests/make_expected.py). The last line is `N passed, N failed`. With --slow
it also feeds an input of more than 4,294,967,296 bytes. The damages of files are drawn from a seed,
another one at each run if none is given.
"""

import argparse
import os
import pathlib
import re
import subprocess
import sys
import tempfile
import time

import archive
import builds
import checks
import collect
import collect_mail
import collect_odd
import collect_sources
import damage_lines
import damages
import dialogs
import docs
import files
import helped
import installed
import manual
import merges
import packaging
import pages
import patterns
import peaks
import phrases
import pictures
import shards
import shards_asked
import shards_slurm
import wrong_bodies
from kinds import Draws, cases
from usages import not_understood

EXPECTED = pathlib.Path(__file__).parent / "expected"
K = b"the cat sat\n\x02the dog\n\x02Cat, cat & dog!\n\x02"
MOST = 268_435_456
# The tools that make a set, and which of their names is the set's.
MADE = {"build": 1, "migrate": 1, "merge": 2}


def names_in(words):
    """The names among a tool's words: all behind `--`, and before it what is neither an option nor its number."""
    end = words.index("--") if "--" in words else len(words)
    return [word for word in words[:end] if not word.startswith("-") and not word.isdigit()] + words[end + 1 :]


class Suite:
    """Runs of the program in a folder of its own, and how many came out as they should."""

    def __init__(self, program, folder, seed):
        self.program = pathlib.Path(program).resolve()
        self.folder = pathlib.Path(folder)
        self.seed = seed
        self.passed = 0
        self.failed = 0

    def file(self, name, content):
        """A file of the folder with these bytes."""
        (self.folder / name).write_bytes(content)
        return name

    def run(self, words, given=b"", stdin=None, stdout=subprocess.PIPE):
        """The program's status, output and error output."""
        source = {"stdin": stdin} if stdin is not None else {"input": given}
        run = subprocess.run(
            [self.program, *words], cwd=self.folder, stdout=stdout, stderr=subprocess.PIPE, timeout=300, **source
        )
        if run.returncode == 0 and words and words[0] in MADE:
            self.made(words, run.stdout or b"")
        return run.returncode, run.stdout, run.stderr

    def made(self, words, out):
        """`check` says that a set which was just made stands, with as many documents as were told."""
        told = re.match(rb"documents ([0-9]+)\n", out)
        names = names_in(words[1:])
        number = told.group(1) if told else b"[0-9]+"
        found = self.run(["check", "--", names[MADE[words[0]]]])
        stands = re.fullmatch(rb"stands %s documents [0-9]+ bytes\n" % number, found[1]) is not None
        self.check(f"{' '.join(words)}: the set that was made stands", stands and found[0] == 0 or found, True)

    def check(self, name, got, wanted):
        if got == wanted:
            self.passed += 1
            return
        self.failed += 1
        print(f"FAILED {name}")
        print(f"  wanted {str(wanted)[:400]}")
        print(f"  got    {str(got)[:400]}")

    def answers(self, name, collection, session, wanted):
        """`scan` prints this at status 0, and no fault line."""
        self.file("text", collection)
        self.check(name, self.run(["scan", "text"], session), (0, wanted, b""))


def replies(*lines):
    return b"".join(line.encode() + b"\n" for line in lines)


def rows(suite):
    """Lines over small collections, worked by hand."""
    table = [
        ("an empty collection", b"", b"!cat\n", replies("= 0")),
        ("words", K, b"cat\nzebra\n", replies("1", "3", "= 2", "= 0")),
        ("a conjunction", K, b"cat & !the", replies("3", "= 1")),
        ("side by side and or", K, b"cat dog | sat", replies("1", "3", "= 2")),
        ("a negation of an absent word", K, b"!zebra\n", replies("1", "2", "3", "= 3")),
        ("empty documents", b"\x02\x02", b"!x\n", replies("1", "2", "= 2")),
        ("one empty document", b"\x02", b"!x\n", replies("1", "= 1")),
        ("a word of 256 bytes", b"a" * 256, b"a\n" + b"a" * 255 + b"\n" + b"a" * 256,
         replies("1", "= 1", "1", "= 1", "? word too long at 0")),
        ("refusals", K, b"cat & (dog\ncat ) dog\ncat & | dog\n" + b"(" * 33 + b"\n, ,\n",
         replies("? syntax at 10", "? syntax at 4", "? syntax at 6", "? too deep at 32", "? syntax at 3")),
        ("ranked", K, b".set query ranked\ncat\ncat CAT cat\ncat dog\nzebra\n, ,\n",
         replies("3 77451", "1 50002", "= 2", "3 77451", "1 50002", "= 2",
                 "3 116177", "2 61191", "1 50002", "= 3", "= 0", "= 0")),
        ("a tie goes to the earlier document", b"a\x02a\x02", b".set query ranked\n.set maxdocs 1\na\n",
         replies("1 65536", "= 2")),
        ("too many ranked words", K,
         b".set query ranked\n" + b" ".join(bytes([97 + n // 26, 97 + n % 26]) for n in range(65)),
         replies("? too many words at 192")),
        ("a shown document", K, b".set mode text\nsat\n.set mode count\ncat\n", b"-- 1\nthe cat sat\n\x02\n= 1\n= 2\n"),
        ("a carriage return", K, b"cat\r\n\r\n\ncat\r\r\n", replies("1", "3", "= 2", "1", "3", "= 2")),
        ("commands", K, b".set  query   ranked\n.set maxdocs 0\n.cat\ncat\n",
         replies("? bad command", "? bad command", "3 77451", "1 50002", "= 2")),
        ("a line of 1,025 bytes", K, b"x" * 1025 + b"\n" + b" " * 1021 + b"sat\n", replies("? line too long", "1", "= 1")),
        ("the end of a session", K, b"sat\n.quit\nsat\n", replies("1", "= 1")),
        ("maxdocs leaves the count", K, b".set maxdocs 1\ncat\n", replies("1", "= 2")),
        ("no end", b"cat \x02 dog", b"dog\n", replies("2", "= 1")),
        ("a null byte", b"a\x00b\x02", b"a\nb", replies("1", "= 1", "1", "= 1")),
        ("bytes that are no ASCII", "Ärger\x02ärger\x02".encode(), "Ärger\n".encode(), replies("1", "= 1")),
        ("lines of the collection with carriage returns", b"a\r\nb\r\n\x02", b"a b\n", replies("1", "= 1")),
    ]
    for name, collection, session, wanted in table:
        suite.answers(name, collection, session, wanted)


def stored(suite):
    """Sessions of two hundred lines over collections of each kind."""
    for name, collection, session in cases():
        suite.answers(name, collection, session, (EXPECTED / f"{name}.out").read_bytes())


def words(suite):
    """The words of the command line."""
    suite.file("text", K)
    for name, given in [
        ("no words", []), ("no tool", ["index"]), ("no name", ["scan"]), ("a word too many", ["scan", "text", "more"]),
        ("an empty name", ["scan", ""]), ("an option", ["scan", "--all", "text"]),
    ]:
        suite.check(name, suite.run(given, b"sat\n"), not_understood(given))
    for name in ["name with blanks", "Bücher.txt", "a.b"]:
        suite.file(name, K)
        suite.check(f"a collection {name!r}", suite.run(["scan", name], b"sat\n"), (0, replies("1", "= 1"), b""))
    status, out, _ = suite.run([b"scan", b"\xff\xfe"], b"sat\n")
    suite.check("words that are no UTF-8", (status, out), (18, b""))


def devices(suite):
    """Files and streams that are missing, of the wrong kind, full, or gone."""
    suite.file("text", K)
    missing = (7, b"", b"mg: there is no such collection\n")
    suite.check("a missing collection", suite.run(["scan", "none"], b"sat\n"), missing)
    (suite.folder / "folder").mkdir(exist_ok=True)
    suite.check("a folder as collection", suite.run(["scan", "folder"], b"sat\n"), (2, b"", b"mg: the store failed\n"))
    with open(suite.folder / "big", "wb") as big:
        big.truncate(MOST + 1)
    large = b"mg: the collection has 268435457 bytes, more than 268435456\n"
    suite.check("a collection that is too large", suite.run(["scan", "big"], b"sat\n"), (8, b"", large))
    os.remove(suite.folder / "big")
    folder = os.open(suite.folder, os.O_RDONLY)
    unread = (3, b"", b"mg: the input could not be read\n")
    suite.check("a folder as input", suite.run(["scan", "text"], stdin=folder), unread)
    os.close(folder)
    with open("/dev/full", "wb") as full:
        unwritten = (4, None, b"mg: the output could not be written\n")
        suite.check("a full output", suite.run(["scan", "text"], b"sat\n", stdout=full), unwritten)
    reader, writer = os.pipe()
    os.close(reader)
    status, _, _ = suite.run(["scan", "text"], b"sat\n", stdout=writer)
    os.close(writer)
    suite.check("a reader that went away", status, 4)
    status = subprocess.run(f"'{suite.program}' scan text 2>/dev/full >/dev/null <.", shell=True, cwd=suite.folder)
    suite.check("a full error output changes no status", status.returncode, 3)
    suite.check("the collection is as it was", (suite.folder / "text").read_bytes(), K)


def large_collection(suite):
    """Fifty megabytes."""
    draws = Draws(99)
    vocabulary = [bytes(draws.one_of(b"abcdefghijklmnop") for _ in range(2 + draws.below(6))) for _ in range(500)]
    block = b"".join(b" ".join(draws.one_of(vocabulary) for _ in range(60)) + b"\n\x02" for _ in range(1000))
    copies = 50_000_000 // len(block) + 1
    word = vocabulary[7]
    count = sum(word in document.split() for document in block.split(b"\x02"))
    suite.file("large", block * copies + b"needle")
    lines = b"needle\n.set mode count\n" + word + b"\n"
    wanted = replies(f"{1000 * copies + 1}", "= 1", f"= {count * copies}")
    suite.check("fifty megabytes", suite.run(["scan", "large"], lines), (0, wanted, b""))
    os.remove(suite.folder / "large")


def long_input(suite):
    """An input of more than 2^32 bytes."""
    suite.file("text", K)
    for name, tail, wanted in [
        ("an input that is too long", b"sat\n", (14, b"mg: the input is longer than 4294967296 bytes\n")),
        ("a session that ends before", b"", (0, b"")),
    ]:
        command = [suite.program, "scan", "text"]
        run = subprocess.Popen(command, cwd=suite.folder, stdin=subprocess.PIPE, stdout=subprocess.PIPE, stderr=subprocess.PIPE)
        for _ in range(2**12):
            run.stdin.write(b"\n" * 2**20)
        run.stdin.write(tail)
        out, err = run.communicate()
        suite.check(name, (run.returncode, err, out), (*wanted, b""))


PARTS = [rows, stored, words, devices, large_collection]
SLOW = [long_input]
MODULES = (
    files,
    builds,
    checks,
    merges,
    phrases,
    patterns,
    shards,
    shards_asked,
    shards_slurm,
    dialogs,
    damage_lines,
    damages,
    peaks,
    manual,
    helped,
    collect,
    collect_mail,
    collect_sources,
    collect_odd,
    archive,
    installed,
    packaging,
    pages,
    pictures,
    docs,
    wrong_bodies,
)


def parts_of(only, slow):
    """What is to be run: all parts, or those of the modules of these names."""
    chosen = [module for module in MODULES if not only or module.__name__ in only]
    parts = [] if only else PARTS + SLOW * slow
    for module in chosen:
        parts = parts + module.PARTS + getattr(module, "SLOW", []) * slow
    return parts


def main():
    parser = argparse.ArgumentParser(description="Drives the built program through real files and pipes.")
    parser.add_argument("--slow", action="store_true", help="also the cases that take minutes and gigabytes")
    parser.add_argument("--seed", type=int, default=time.time_ns() % 2**32, help="the seed of the damages of files")
    names = [module.__name__ for module in MODULES]
    parser.add_argument("--only", action="append", choices=names, metavar="NAME", help="only this module: " + ", ".join(names))
    parser.add_argument("program")
    given = parser.parse_args()
    with tempfile.TemporaryDirectory() as folder:
        suite = Suite(given.program, folder, given.seed)
        for part in parts_of(given.only, given.slow):
            part(suite)
    print(f"{suite.passed} passed, {suite.failed} failed")
    return 1 if suite.failed or not suite.passed else 0


if __name__ == "__main__":
    sys.exit(main())
