#!/usr/bin/python3
"""How the cost of mg grows with the collection: build, decode and query at several sizes.

    python3 bench/linear.py bin/mg [--sizes MB ..] [--runs N] [--keep FOLDER] [--figures FILE]

The documents are those of compare.py, in an order drawn with a fixed seed. A collection of some
megabytes has the first documents of that order, as many as fit. Where it is to be larger than all of
them, they come again, and in each further copy a word that stands in at most two documents has the
number of the copy in letters behind it: so rare words go on to grow with the collection, as in text
that does not repeat itself, and common ones get longer lists. The questions are drawn by compare.py
from the words of each collection. Times are those of the processor, peaks the greatest resident
sizes, each the median of the runs. The table is printed as Markdown, and the figures go to a file,
from which charts.py draws.
"""

import argparse
import os
import random
import re
import shutil
import tempfile

import compare
import figures

WORD = re.compile(rb"[0-9A-Za-z\x80-\xff]+")
RARE = 2


def rare_words(documents):
    """The words that stand in at most two of the documents."""
    have = {}
    for document in documents:
        for word in set(WORD.findall(document)):
            have[word] = have.get(word, 0) + 1
    return {word for word, count in have.items() if count <= RARE}


def letters(copy):
    """The number of a copy, from 1 on, in letters."""
    return bytes(ord("a") + int(digit) for digit in str(copy))


def renamed(document, rare, copy):
    """A document of a copy; the first copy, 0, is as it was."""
    if copy == 0:
        return document
    behind = letters(copy)
    return WORD.sub(lambda word: word[0] + behind if word[0] in rare else word[0], document)


def write_grown(path, documents, rare, size):
    """Writes a collection of at most so many bytes, and answers how many documents it has."""
    written, count, copy = 0, 0, 0
    with open(path, "wb") as file:
        while True:
            for document in documents:
                document = renamed(document, rare, copy)
                if written + len(document) + 1 > size:
                    return count
                file.write(document + compare.CLOSE)
                written += len(document) + 1
                count += 1
            copy += 1


def measured(mg, folder, documents, rare, megabytes, runs):
    """What mg takes for a collection of this size."""
    collection, made = os.path.join(folder, "collection"), os.path.join(folder, "set")
    row = {"documents": write_grown(collection, documents, rare, int(megabytes * 1e6)), "bytes": os.path.getsize(collection)}
    lines = compare.session(*compare.questions(collection))
    for words, given in (["build", collection, made], b""), (["decode", made], b""), (["query", made], lines):
        seconds, peak = compare.medians(runs, lambda: compare.run([mg] + words, given))
        row[words[0]] = {"seconds": seconds, "peak": peak}
    return row


def line_of(row):
    """The row of the table: for build and decode with the milliseconds of a megabyte."""
    size = row["bytes"] / 1e6
    cells = ["%.1f MB, %d documents" % (size, row["documents"])]
    for tool in ("build", "decode", "query"):
        seconds = row[tool]["seconds"]
        each = ", %.1f ms a MB" % (1000 * seconds / size) if tool != "query" else ""
        cells.append("%.2f s%s, %.0f MB" % (seconds, each, row[tool]["peak"] / 1e6))
    return "| %s |" % " | ".join(cells)


def main():
    words = argparse.ArgumentParser(description=__doc__.split("\n")[0])
    words.add_argument("mg")
    words.add_argument("--sizes", type=float, nargs="+", default=[1, 10, 100, 1000])
    words.add_argument("--runs", type=int, default=1)
    words.add_argument("--keep", help="a folder for the files, which stay")
    words.add_argument("--figures", help="a file for the figures, beside those of other benches")
    asked = words.parse_args()
    documents = list(compare.texts(compare.DOCUMENTATION))
    random.Random(7).shuffle(documents)
    rare = rare_words(documents)
    folder = asked.keep or tempfile.mkdtemp()
    os.makedirs(folder, exist_ok=True)
    rows = []
    print("| Collection | `mg build`, peak | `mg decode`, peak | 500 Boolean and 500 ranked lines, peak |\n|---|---|---|---|")
    try:
        for megabytes in asked.sizes:
            rows.append(measured(os.path.abspath(asked.mg), folder, documents, rare, megabytes, asked.runs))
            print(line_of(rows[-1]), flush=True)
    finally:
        if not asked.keep:
            shutil.rmtree(folder)
    if asked.figures:
        figures.put(asked.figures, "sizes", rows)


if __name__ == "__main__":
    main()
