#!/usr/bin/python3
"""mg beside SQLite's FTS5, Xapian and grep, on one collection of real text and in one run.

    python3 bench/compare.py bin/mg [--runs N] [--keep FOLDER] [--figures FILE]

The collection is the kernel's documentation of Debian's package linux-doc: each of its files that
end in .rst or .txt is a document, in the order of their names, closed by control-B. A second one
has each text once, since a third of these files repeat another. The same 500 Boolean and 500
ranked questions, drawn with a fixed seed from the words of the collection, go to each system; each
answers with ten rows. Times are those of the processor (user and system), of a whole process from
its start to its end, Python's own start included where Python drives the system; peaks are the
greatest resident sizes. Each figure is the median of the runs. The table is printed as Markdown, and
the figures go to a file, from which charts.py draws.
"""

import argparse
import gzip
import os
import random
import re
import shutil
import statistics
import subprocess
import sys
import tempfile

import figures

DOCUMENTATION = "/usr/share/doc/linux-doc-6.1"
CLOSE = b"\x02"
ROWS = 10


# ---- the collection and the questions


def texts(folder):
    """The bytes of each document, in the order of the files' names."""
    names = []
    for place, _, files in os.walk(folder):
        for name in files:
            path = os.path.join(place, name)
            plain = name[:-3] if name.endswith(".gz") else name
            if os.path.splitext(plain)[1] in (".rst", ".txt") and not os.path.islink(path):
                names.append(path)
    for path in sorted(names):
        opened = gzip.open if path.endswith(".gz") else open
        with opened(path, "rb") as file:
            yield file.read().replace(CLOSE, b" ")


def write_collection(path, documents):
    with open(path, "wb") as file:
        for document in documents:
            file.write(document + CLOSE)


def questions(path, seed=7):
    """Words by how many documents have them, and questions of one to three words of these."""
    have = {}
    with open(path, "rb") as file:
        for document in file.read().split(CLOSE):
            for word in set(re.findall(rb"[A-Za-z]{3,20}", document)):
                word = word.lower().decode()
                have[word] = have.get(word, 0) + 1
    words = sorted(word for word, count in have.items() if count >= 3)
    words.sort(key=lambda word: (-have[word], word))
    common, middle = words[:300], words[300:5000]
    draw = random.Random(seed)
    boolean, ranked = [], []
    for number in range(500):
        a, b, c = draw.choice(common), draw.choice(middle), draw.choice(middle)
        boolean.append([("one", b), ("and", a, b), ("or", b, c), ("not", b, a)][number % 4])
        ranked.append([[b], [a, b], [b, c], [a, b, c]][number % 4])
    return boolean, ranked


def session(boolean, ranked):
    """The questions as lines of a session of mg."""
    forms = {"one": "{}", "and": "{} & {}", "or": "{} | {}", "not": "{} & !{}"}
    lines = [".set maxdocs %d" % ROWS]
    lines += [forms[form].format(*terms) for form, *terms in boolean]
    lines += [".set query ranked"]
    lines += [" ".join(terms) for terms in ranked]
    return "".join(line + "\n" for line in lines).encode()


# ---- the other systems; each of these runs in a process of its own


def fts5_build(collection, place):
    import sqlite3

    base = sqlite3.connect(place)
    base.execute("pragma journal_mode = off")
    base.execute("pragma synchronous = off")
    base.execute("create virtual table docs using fts5(text, tokenize = 'unicode61 remove_diacritics 0')")
    with open(collection, "rb") as file:
        documents = file.read().split(CLOSE)[:-1]
    rows = ((document.decode("latin-1"),) for document in documents)
    base.executemany("insert into docs(text) values (?)", rows)
    base.commit()


def fts5_query(collection, place):
    import sqlite3

    base = sqlite3.connect(place)
    boolean, ranked = questions_of_file(collection)
    forms = {"one": '"{}"', "and": '"{}" AND "{}"', "or": '"{}" OR "{}"', "not": '"{}" NOT "{}"'}
    for form, *terms in boolean:
        query = forms[form].format(*terms)
        base.execute("select rowid from docs where docs match ? limit ?", (query, ROWS)).fetchall()
    for terms in ranked:
        query = " OR ".join('"%s"' % term for term in terms)
        base.execute("select rowid, rank from docs where docs match ? order by rank limit ?", (query, ROWS)).fetchall()


def fts5_one(collection, place):
    import sqlite3

    base = sqlite3.connect(place)
    base.execute("select rowid from docs where docs match ? limit ?", ('"kernel"', ROWS)).fetchall()


def fts5_decode(collection, place):
    import sqlite3

    base = sqlite3.connect(place)
    with open(os.devnull, "wb") as out:
        for (text,) in base.execute("select text from docs order by rowid"):
            out.write(text.encode("latin-1") + CLOSE)


def xapian_build(collection, place):
    import xapian

    base = xapian.WritableDatabase(place, xapian.DB_CREATE_OR_OVERWRITE)
    terms = xapian.TermGenerator()
    with open(collection, "rb") as file:
        for document in file.read().split(CLOSE)[:-1]:
            text = document.decode("latin-1")
            made = xapian.Document()
            made.set_data(text)
            terms.set_document(made)
            terms.index_text(text)
            base.add_document(made)
    base.commit()


def xapian_query(collection, place):
    import xapian

    base = xapian.Database(place)
    ask = xapian.Enquire(base)
    boolean, ranked = questions_of_file(collection)
    kinds = {"and": xapian.Query.OP_AND, "or": xapian.Query.OP_OR, "not": xapian.Query.OP_AND_NOT}
    for form, *terms in boolean:
        query = xapian.Query(terms[0]) if form == "one" else xapian.Query(kinds[form], *map(xapian.Query, terms))
        ask.set_weighting_scheme(xapian.BoolWeight())
        ask.set_query(query)
        [hit.docid for hit in ask.get_mset(0, ROWS)]
    ask.set_weighting_scheme(xapian.BM25Weight())
    for terms in ranked:
        ask.set_query(xapian.Query(xapian.Query.OP_OR, list(map(xapian.Query, terms))))
        [hit.docid for hit in ask.get_mset(0, ROWS)]


def xapian_one(collection, place):
    import xapian

    ask = xapian.Enquire(xapian.Database(place))
    ask.set_weighting_scheme(xapian.BoolWeight())
    ask.set_query(xapian.Query("kernel"))
    [hit.docid for hit in ask.get_mset(0, ROWS)]


def xapian_decode(collection, place):
    import xapian

    base = xapian.Database(place)
    with open(os.devnull, "wb") as out:
        for number in range(1, base.get_doccount() + 1):
            out.write(base.get_document(number).get_data() + CLOSE)


def questions_of_file(collection):
    """The questions, as the parent wrote them: one a line, its form and its words."""
    boolean, ranked = [], []
    with open(collection + ".questions", encoding="ascii") as file:
        for line in file:
            form, *terms = line.split()
            if form == "ranked":
                ranked.append(terms)
            else:
                boolean.append([form] + terms)
    return boolean, ranked


CHILDREN = {
    name: function
    for name, function in list(globals().items())
    if name.startswith(("fts5_", "xapian_")) and callable(function)
}


# ---- measuring


def run(words, give=b""):
    """Seconds of the processor and the peak in bytes of one process.

    Each is started by the program `time`, which is small: a process that Python starts itself would
    have Python's own size as its peak."""
    with tempfile.NamedTemporaryFile("r") as told:
        timed = ["/usr/bin/time", "--format", "%U %S %M", "--output", told.name] + words
        ended = subprocess.run(timed, input=give, stdout=subprocess.DEVNULL)
        if ended.returncode != 0:
            sys.exit("bench: %s ended with %d" % (" ".join(words), ended.returncode))
        user, system, peak = told.read().split()
    return float(user) + float(system), int(peak) * 1024


def medians(runs, measure):
    """The medians of the times and of the peaks of some runs."""
    seen = [measure() for _ in range(runs)]
    return tuple(statistics.median(column) for column in zip(*seen))


def size_of(place):
    """The bytes of a file, or of all files in a folder."""
    if os.path.isfile(place):
        return os.path.getsize(place)
    return sum(os.path.getsize(os.path.join(place, name)) for name in os.listdir(place))


NAMES = {
    "build": "build",
    "query": "500 Boolean and 500 ranked lines, ten rows each",
    "one": "one line of a word, process start to end",
    "decode": "decode",
}


def work_of_mg(mg, collection, made, lines):
    """What each row has mg do."""
    return {
        "build": lambda: run([mg, "build", collection, made]),
        "query": lambda: run([mg, "query", made], lines),
        "one": lambda: run([mg, "query", made], b".set maxdocs 10\nkernel\n"),
        "decode": lambda: run([mg, "decode", made]),
    }


def work_of_other(system, collection, place):
    """What each row has another system do; each build begins with nothing there."""
    child = [sys.executable, os.path.abspath(__file__), "--child"]

    def build():
        shutil.rmtree(place, ignore_errors=True)
        if os.path.exists(place):
            os.remove(place)
        return run(child + ["%s_build" % system.lower(), collection, place])

    asked = {key: lambda key=key: run(child + ["%s_%s" % (system.lower(), key), collection, place]) for key in NAMES}
    return {**asked, "build": build}


def measured(mg, folder, title, documents, runs):
    """What each system took for one collection."""
    collection, made = os.path.join(folder, "collection"), os.path.join(folder, "set")
    write_collection(collection, documents)
    boolean, ranked = questions(collection)
    with open(collection + ".questions", "w", encoding="ascii") as file:
        file.writelines(" ".join(question) + "\n" for question in boolean)
        file.writelines("ranked " + " ".join(question) + "\n" for question in ranked)
    places = {system: os.path.join(folder, system.lower()) for system in ["FTS5"] + ["Xapian"] * has_xapian()}
    work = {"mg": work_of_mg(mg, collection, made, session(boolean, ranked))}
    work |= {system: work_of_other(system, collection, place) for system, place in places.items()}
    systems = {system: {} for system in work}
    for key in NAMES:
        for system in work:
            seconds, peak = medians(runs, work[system][key])
            systems[system][key] = {"seconds": seconds, "peak": peak}
    systems["mg"]["disk"] = sum(size_of(os.path.join(folder, name)) for name in os.listdir(folder) if name.startswith("set."))
    for system, place in places.items():
        systems[system]["disk"] = size_of(place)
    row = {"title": title, "documents": len(documents), "bytes": os.path.getsize(collection), "systems": systems}
    return {**row, "scan": beside_grep(mg, collection, boolean, runs)}


def show(row):
    """The table of one collection."""
    systems = row["systems"]

    def cells(name, cell):
        print("| %s | %s |" % (name, " | ".join(cell(systems[system], system) for system in systems)))

    print("\n**%s: %d documents, %.1f MB**\n" % (row["title"], row["documents"], row["bytes"] / 1e6))
    print("| | %s |\n%s|" % (" | ".join(systems), "|---" * (len(systems) + 1)))
    for key, name in NAMES.items():
        own = systems["mg"][key]["seconds"]
        times = lambda told, system: "%.3f s" % told[key]["seconds"] + (" (%.2f)" % (own / told[key]["seconds"]) if system != "mg" else "")
        cells(name, times)
        cells(name + ": peak", lambda told, _: "%.0f MB" % (told[key]["peak"] / 1e6))
    cells("bytes on disk, of the collection", lambda told, _: "%.1f %%" % (100 * told["disk"] / row["bytes"]))
    scan = row["scan"]
    told = (scan["seconds"], scan["peak"] / 1e6, scan["grep"], scan["seconds"] / scan["grep"])
    print("\n`mg scan` of twenty words: %.2f s, peak %.0f MB; twenty runs of grep: %.2f s (%.2f)" % told, flush=True)


def beside_grep(mg, collection, boolean, runs):
    """Twenty words counted by `mg scan` and by twenty runs of grep into a pipe."""
    words = [terms[0] for form, *terms in boolean if form == "one"][:20]
    lines = "".join([".set mode count\n"] + [word + "\n" for word in words]).encode()
    scan, peak = medians(runs, lambda: run([mg, "scan", collection], lines))
    script = "for word in %s; do grep -a -c -i -w -F $word %s | cat; done" % (" ".join(words), collection)
    grep, _ = medians(runs, lambda: run(["sh", "-c", script]))
    return {"seconds": scan, "peak": peak, "grep": grep}


def has_xapian():
    return subprocess.call([sys.executable, "-c", "import xapian"], stderr=subprocess.DEVNULL) == 0


def main():
    if sys.argv[1:2] == ["--child"]:
        CHILDREN[sys.argv[2]](*sys.argv[3:])
        return
    words = argparse.ArgumentParser(description=__doc__.split("\n")[0])
    words.add_argument("mg")
    words.add_argument("--runs", type=int, default=3)
    words.add_argument("--keep", help="a folder for the files, which stay")
    words.add_argument("--figures", help="a file for the figures, beside those of other benches")
    asked = words.parse_args()
    mg = os.path.abspath(asked.mg)
    documents = list(texts(DOCUMENTATION))
    folder = asked.keep or tempfile.mkdtemp()
    os.makedirs(folder, exist_ok=True)
    rows = []
    try:
        for title, chosen in [("The kernel's documentation", documents), ("The same, each text once", list(dict.fromkeys(documents)))]:
            rows.append(measured(mg, folder, title, chosen, asked.runs))
            show(rows[-1])
    finally:
        if not asked.keep:
            shutil.rmtree(folder)
    if asked.figures:
        figures.put(asked.figures, "peers", rows)


if __name__ == "__main__":
    main()
