#!/usr/bin/python3
"""`mg merge` beside the build of the whole, and `mg phrase` beside grep, on the kernel's documentation.

    python3 bench/later.py bin/mg [--runs N] [--keep FOLDER]

The documents are those of compare.py. Their first and second half by bytes are built and merged; the
build of the whole is timed in the same turn. A phrase is asked alone, as grep is, and then eleven times
in one session, which tells what each further time costs once the set is open. Times are those of the
processor, of a whole process, each the median of the runs.
"""

import argparse
import os
import shutil
import tempfile

import compare

# Two words that most documents have, and a phrase with a word that few have.
COMMON = b"of the"
RARE = b"the kthread"


def halves(documents):
    """The documents in two parts of about as many bytes."""
    half, size = sum(map(len, documents)) // 2, 0
    for number, document in enumerate(documents):
        size += len(document)
        if size >= half:
            return documents[: number + 1], documents[number + 1 :]
    return documents, []


def merging(mg, folder, documents, runs):
    place = lambda name: os.path.join(folder, name)
    first, second = halves(documents)
    for name, part in (("text.a", first), ("text.b", second), ("text", documents)):
        compare.write_collection(place(name), part)
    for name in "ab":
        compare.run([mg, "build", place(f"text.{name}"), place(name)])
    built, built_peak = compare.medians(runs, lambda: compare.run([mg, "build", place("text"), place("whole")]))
    merged, peak = compare.medians(runs, lambda: compare.run([mg, "merge", place("a"), place("b"), place("both")]))
    print(f"build of the whole {built:.2f} s, peak {built_peak / 1e6:.0f} MB; "
          f"merge of two halves {merged:.2f} s, peak {peak / 1e6:.0f} MB ({merged / built:.2f})")


def phrases(mg, folder, runs):
    place = lambda name: os.path.join(folder, name)
    for phrase in (COMMON, RARE):
        asked, _ = compare.medians(runs, lambda: compare.run([mg, "phrase", place("whole")], phrase + b"\n"))
        words = [mg, "phrase", place("whole")]
        many, _ = compare.medians(runs, lambda: compare.run(words, (phrase + b"\n") * 11))
        grep, _ = compare.medians(runs, lambda: compare.run(["sh", "-c", f"grep -c -a -i -w -F '{phrase.decode()}' {place('text')} | cat"]))
        print(f"the phrase `{phrase.decode()}`: {1000 * asked:.0f} ms from start to end, {100 * (many - asked):.2f} ms "
              f"each further time in the session; grep {1000 * grep:.0f} ms")


def main():
    words = argparse.ArgumentParser(description=__doc__.split("\n")[0])
    words.add_argument("mg")
    words.add_argument("--runs", type=int, default=3)
    words.add_argument("--keep", help="a folder for the files, which stay")
    asked = words.parse_args()
    mg = os.path.abspath(asked.mg)
    documents = list(compare.texts(compare.DOCUMENTATION))
    folder = asked.keep or tempfile.mkdtemp()
    os.makedirs(folder, exist_ok=True)
    try:
        merging(mg, folder, documents, asked.runs)
        phrases(mg, folder, asked.runs)
    finally:
        if not asked.keep:
            shutil.rmtree(folder)


if __name__ == "__main__":
    main()
