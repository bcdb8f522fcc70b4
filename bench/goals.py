#!/usr/bin/python3
"""What mg is to reach, beside what it was seen to take and what other programs took in the same turns.

    python3 bench/goals.py bin/mg [--turns N] [--keep FOLDER] [--figures FILE]

The collection is that of compare.py. In each turn every work runs once, those of mg and of the others one after the other; a
figure is the median of the turns. Times are of the processor (user and system), of a whole process; where a line is timed
beside the opening, the time of an empty session is taken away. A rare phrase is timed beside a session of one such phrase, since
the first line loads the models. Peaks are the greatest resident sizes. The peak of a build of a gigabyte is read from what
linear.py saw. Run it with nothing else running.
"""

import argparse
import gzip
import os
import random
import re
import shutil
import statistics
import subprocess
import sys
import tempfile

import compare
import figures

PHRASE = "of the"
# A common word and one that some thirty documents have.
FEW = "the kthread"
# How often a short line is asked in one session.
OFTEN = 200
# How many rare phrases are asked, and in how many documents at most the words of one stand together.
RARE = 50
TOGETHER = 3
MANY = 1_000_000
SHORT = 500_000
TERMS = 50_000


def seconds(words, lines=b""):
    """Seconds of the processor of one process, to the microsecond."""
    with tempfile.TemporaryFile() as given:
        given.write(lines)
        given.seek(0)
        process = subprocess.Popen(words, stdin=given, stdout=subprocess.DEVNULL)
        _, status, usage = os.wait4(process.pid, 0)
        process.returncode = os.waitstatus_to_exitcode(status)
    if process.returncode:
        sys.exit("bench: %s ended with %d" % (" ".join(words), process.returncode))
    return usage.ru_utime + usage.ru_stime


def word(number):
    """Six letters of a number."""
    letters = []
    for _ in range(6):
        number, letter = divmod(number, 26)
        letters.append(97 + letter)
    return bytes(reversed(letters))


def rare_phrases(documents, seed=7):
    """Phrases of two words that stand together in one to three documents, drawn with a fixed seed from these."""
    have = {}
    for number, document in enumerate(documents):
        for word in set(re.findall(rb"[0-9A-Za-z]+", document.lower())):
            have.setdefault(word, set()).add(number)
    draw, found = random.Random(seed), []
    while len(found) < RARE:
        pairs = re.findall(rb"(?<![0-9A-Za-z])([A-Za-z]{3,20}) ([A-Za-z]{3,20})(?![0-9A-Za-z])", draw.choice(documents))
        first, second = draw.choice(pairs) if pairs else (b"", b"")
        together = have.get(first.lower(), set()) & have.get(second.lower(), set())
        if 1 <= len(together) <= TOGETHER:
            found.append((first + b" " + second).decode())
    return found


def write(path, documents):
    with open(path, "wb") as file:
        file.writelines(document + compare.CLOSE for document in documents)
    return path


class Bench:
    """The collections, the sets, and what each work took in each turn."""

    def __init__(self, mg, folder, turns):
        self.mg, self.folder, self.turns = mg, folder, turns
        self.seen = {}

    def at(self, name):
        return os.path.join(self.folder, name)

    def build(self, collection, name):
        compare.run([self.mg, "build", self.at(collection), self.at(name)])

    def prepare(self):
        """The collections, and sets of them that are asked."""
        documents = list(compare.texts(compare.DOCUMENTATION))
        half = len(documents) // 2
        write(self.at("text"), documents)
        write(self.at("front"), documents[:half])
        write(self.at("back"), documents[half:])
        write(self.at("short"), (b"twenty bytes %06d" % number for number in range(SHORT)))
        write(self.at("many"), (b"the " + word(number) for number in range(MANY)))
        write(self.at("terms"), (b" ".join(word(10 * number + more) for more in range(10)) for number in range(TERMS // 10)))
        for name in ("text", "front", "back", "short", "many", "terms"):
            self.build(name, f"set-{name}")
        with open(self.at("text"), "rb") as text, gzip.open(self.at("text.gz"), "wb") as packed:
            shutil.copyfileobj(text, packed)
        self.boolean, self.ranked = compare.questions(self.at("text"))
        self.rare = rare_phrases(documents)
        with open(self.at("text.questions"), "w", encoding="ascii") as file:
            file.writelines(" ".join(question) + "\n" for question in self.boolean)
            file.writelines("ranked " + " ".join(question) + "\n" for question in self.ranked)

    def works(self):
        """Each work by its name: what it takes, and for a build its peak too."""
        mg, text, made = self.mg, self.at("text"), self.at("set-text")
        asked = lambda tool, name, lines=b"": lambda: seconds([mg, tool, self.at(name)], lines)
        often = lambda line: (line.encode() + b"\n") * OFTEN
        works = {
            "build": lambda: compare.run([mg, "build", text, self.at("new")]),
            "decode": asked("decode", "set-text"),
            "gzip": lambda: seconds(["gzip", "-dc", self.at("text.gz")]),
            "lines": asked("query", "set-text", compare.session(self.boolean, self.ranked)),
            "phrase": asked("phrase", "set-text", PHRASE.encode() + b"\n"),
            "grep": lambda: seconds(["sh", "-c", "grep -a -c -i '%s' %s | cat" % (PHRASE, text)]),
            "few": asked("phrase", "set-text", often(FEW)),
            "one": asked("phrase", "set-text", (self.rare[0] + "\n").encode()),
            "rare": asked("phrase", "set-text", "".join(phrase + "\n" for phrase in self.rare * (OFTEN // RARE)).encode()),
            "check": asked("check", "set-text"),
            "merge": lambda: seconds([mg, "merge", self.at("set-front"), self.at("set-back"), self.at("new")]),
            "short build": lambda: compare.run([mg, "build", self.at("short"), self.at("new")]),
            "short check": asked("check", "set-short"),
            "star": asked("wild", "set-terms", b"*\n"),
            "wild opened": asked("wild", "set-terms"),
            "query opened": asked("query", "set-text"),
            "phrase opened": asked("phrase", "set-text"),
            "text wild opened": asked("wild", "set-text"),
            "text wild one": asked("wild", "set-text", b"zzzzzz*\n"),
            "many opened": asked("query", "set-many"),
            "common": asked("query", "set-many", b".set mode count\nthe\n"),
            "common ranked": asked("query", "set-many", b".set query ranked\n.set maxdocs 10\nthe\n"),
        }
        for system in ["FTS5"] + ["Xapian"] * compare.has_xapian():
            other = compare.work_of_other(system, text, self.at(system.lower()))
            works |= {f"{system} build": other["build"], f"{system} lines": other["query"]}
        return works

    def measure(self):
        works = self.works()
        rows = {name: [] for name in works}
        for turn in range(self.turns):
            print(f"turn {turn + 1} of {self.turns}", file=sys.stderr, flush=True)
            for name, work in works.items():
                took = work()
                rows[name].append(took if isinstance(took, tuple) else (took, 0))
        self.seen = {name: tuple(map(statistics.median, zip(*row))) for name, row in rows.items()}

    def took(self, name):
        return self.seen[name][0]

    def has(self, name):
        return name in self.seen


def beside(bench, name, other, told):
    """What another work took, if it was there."""
    return f"{told} {bench.took(other):.3f} s: {bench.took(name) / bench.took(other):.2f} times" if bench.has(other) else f"{told}: not there"


def largest(path):
    """The peak of a build of a gigabyte, as linear.py saw it."""
    rows = figures.read(path).get("sizes", {}).get("rows", []) if path else []
    return next((row["build"]["peak"] for row in rows if row["bytes"] > 9e8), None)


def goals(bench, path):
    """The rows: what, the goal, what was seen, what is beside it, and whether it is reached; None where it was not seen."""
    took, size = bench.took, os.path.getsize(bench.at("text")) / 1e6
    ratio = lambda name, other: took(name) / took(other) if bench.has(other) else None
    under = lambda seen, most: None if seen is None else seen <= most
    rate = size / took("decode")
    few = 1000 * (took("few") - took("phrase opened")) / OFTEN
    # The first line loads the models, which the others find there.
    rare = 1000 * (took("rare") - took("one")) / (OFTEN - 1)
    star = 1000 * (took("star") - took("wild opened"))
    common = 1e9 * (took("common") - took("many opened")) / MANY
    ranked = 1e9 * (took("common ranked") - took("many opened")) / MANY
    peak, great = bench.seen["build"][1] / 1e6, largest(path)
    rows = [
        ("build", "1.2 times FTS5, aim 1.0", f"{took('build'):.2f} s", beside(bench, "build", "FTS5 build", "FTS5"), under(ratio("build", "FTS5 build"), 1.2)),
        ("build, a MB", "50 ms", f"{1000 * took('build') / size:.1f} ms", "", 1000 * took("build") / size <= 50),
        ("decode", "1.3 times the speed of gzip", f"{took('decode'):.3f} s", beside(bench, "decode", "gzip", "gzip -dc"), took("decode") * 1.3 <= took("gzip")),
        ("decode, the speed", "170 MB/s", f"{rate:.0f} MB/s", f"gzip -dc {size / took('gzip'):.0f} MB/s", rate >= 170),
        ("1,000 mixed lines", "0.6 times Xapian", f"{1000 * took('lines'):.0f} ms", beside(bench, "lines", "Xapian lines", "Xapian"), under(ratio("lines", "Xapian lines"), 0.6)),
        (f"the phrase `{PHRASE}`", "0.3 s", f"{took('phrase'):.3f} s", beside(bench, "phrase", "grep", "grep"), took("phrase") <= 0.3),
        (f"a phrase whose words one to {TOGETHER} documents have, beside the opening", "1 ms", f"{rare:.2f} ms", f"`{FEW}`: {few:.2f} ms", rare <= 1),
        (f"`*` over {TERMS:,} terms, beside the opening", "20 ms", f"{star:.1f} ms", "", star <= 20),
    ]
    # What a tool loads at its first line is no part of its opening, and is shown beside it.
    for tool, name, one in [("query", "query opened", None), ("phrase", "phrase opened", "one"), ("wild", "text wild opened", "text wild one")]:
        opened = 1000 * took(name)
        other = f"with a line: {1000 * took(one):.1f} ms" if one else ""
        rows.append((f"opening a set: {tool}", "3 ms", f"{opened:.1f} ms", other, opened <= 3))
    rows += [
        ("check", "1.2 builds", f"{took('check'):.2f} s", f"{ratio('check', 'build'):.2f} builds", ratio("check", "build") <= 1.2),
        (f"check of {SHORT:,} documents of twenty bytes", "1.2 builds", f"{took('short check'):.2f} s", f"{ratio('short check', 'short build'):.2f} builds", ratio("short check", "short build") <= 1.2),
        ("merge of two halves", "1.0 builds", f"{took('merge'):.2f} s", f"{ratio('merge', 'build'):.2f} builds", ratio("merge", "build") <= 1.0),
        (f"peak of a build of {size:.1f} MB", "48 MB", f"{peak:.0f} MB", f"FTS5 {bench.seen['FTS5 build'][1] / 1e6:.0f} MB", peak <= 48),
        ("peak of a build of 1 GB", "250 MB", "not seen" if great is None else f"{great / 1e6:.0f} MB", "", under(great, 250e6)),
        ("a common word, a document", "30 ns", f"{common:.1f} ns", "", common <= 30),
        ("the same ranked, a posting", "45 ns", f"{ranked:.1f} ns", "", ranked <= 45),
    ]
    return rows


def show(rows):
    """The table, and how many goals are reached."""
    print("\n| What | Goal | Seen | Beside | Reached |\n|---|---|---|---|---|")
    for what, goal, seen, other, reached in rows:
        print("| %s | %s | %s | %s | %s |" % (what, goal, seen, other, {True: "yes", False: "no", None: "not seen"}[reached]))
    print("\n%d of %d goals are reached" % (sum(row[-1] is True for row in rows), len(rows)), flush=True)


def main():
    words = argparse.ArgumentParser(description=__doc__.split("\n")[0])
    words.add_argument("mg")
    words.add_argument("--turns", type=int, default=5)
    words.add_argument("--keep", help="a folder for the files, which stay")
    words.add_argument("--figures", help="a file for the figures, beside those of other benches")
    asked = words.parse_args()
    folder = asked.keep or tempfile.mkdtemp()
    os.makedirs(folder, exist_ok=True)
    bench = Bench(os.path.abspath(asked.mg), folder, asked.turns)
    try:
        bench.prepare()
        bench.measure()
        rows = goals(bench, asked.figures)
        show(rows)
    finally:
        if not asked.keep:
            shutil.rmtree(folder)
    if asked.figures:
        names = ("what", "goal", "seen", "beside", "reached")
        figures.put(asked.figures, "goals", [dict(zip(names, row)) for row in rows])


if __name__ == "__main__":
    main()
