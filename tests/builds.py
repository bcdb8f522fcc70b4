"""Sets that the program builds and makes anew: their parts, their summaries, what is refused, and what a build
leaves that was stopped.

The reference (`reference/`) decides of every part whether it is the collection's.
"""

import os
import pathlib
import resource
import signal
import socket
import subprocess
import sys
import time
import zipfile

sys.path.insert(0, str(pathlib.Path(__file__).parent / "reference"))

from files import BUDGET, K, put_set, remove
from generator import trial
from kinds import cases
from parts import Damaged, build, summary
from sessions import session
from standing import check, read_parts
from texts import Collection
from usages import not_understood

EXPECTED = pathlib.Path(__file__).parent / "expected"
A = b"a a a a "
FAILED = (2, b"", b"mg: the store failed\n")
KEPT = pathlib.Path(__file__).parent / "data" / "version_1.zip"
BUDGETS = [4096, 65_536, BUDGET]
# The parts that no choice of codeword lengths and no budget changes.
SETTLED = ["lex", "lexat", "post", "skip", "weights"]

SMALL = [
    ("nothing", b""), ("three documents", K), ("an open end", K[:-1]), ("one word four times", A),
    ("two empty documents", b"\x02\x02"), ("an empty document", b"\x02"), ("256 letters", b"a" * 256),
    ("300 blanks", b" " * 300), ("200 documents of one word", b"x\x02" * 200),
]


def built_by(suite, name, collection, budget):
    """Builds a set, and compares all that it prints and leaves with the reference."""
    suite.file("text", collection)
    got = suite.run(["build", "text", "set", "--budget", str(budget)])
    suite.check(f"{name}: summary at {budget}", got, (0, summary(Collection(collection), budget), b""))
    parts = read_parts(suite.folder / "set")
    try:
        stands = check(parts).data == collection
    except Damaged as damaged:
        stands = str(damaged)
    suite.check(f"{name}: the set stands at {budget}", stands, True)
    merged = [(suite.folder / f"set.{ending}").read_bytes() for ending in ("mergea", "mergeb")]
    suite.check(f"{name}: empty working parts at {budget}", merged, [b"", b""])
    return parts


def kinds(suite):
    """Each kind of collection with three budgets, decoded; and asked what its scan was asked."""
    asked = {name: (given, (EXPECTED / f"{name}.out").read_bytes()) for name, _, given in cases()}
    for name, collection in SMALL + [(name, collection) for name, collection, _ in cases()]:
        all_parts = [built_by(suite, name, collection, budget) for budget in BUDGETS]
        settled = [[parts[ending] for ending in SETTLED] for parts in all_parts]
        suite.check(f"{name}: lists whatever the budget", settled[1:], settled[:1] * (len(BUDGETS) - 1))
        suite.check(f"{name}: decode of a build", suite.run(["decode", "set"]), (0, collection, b""))
        given, wanted = asked.get(name, (b"!a\n", session(Collection(collection), b"!a\n")))
        suite.check(f"{name}: query of a build", suite.run(["query", "set"], given), (0, wanted, b""))
        put_set(suite, "set", collection, 1)
        suite.check(f"{name}: query of version 1", suite.run(["query", "set"], given), (0, wanted, b""))
        remove(suite, "set")


def bytes_of_parts(suite):
    """Sets whose every byte is settled."""
    for name, collection in [("one word four times", b"a a a a "), ("200 documents of one word", b"x\x02" * 200), ("nothing", b"")]:
        suite.file("text", collection)
        suite.run(["build", "text", "set"])
        wanted = build(Collection(collection), BUDGET, 2)
        suite.check(f"{name}: all bytes", read_parts(suite.folder / "set"), wanted)
        remove(suite, "set")
    for count, budget, runs, peak in [(10_000, 4096, 30, 4092), (25_000, 4096, 74, 4096)]:
        suite.file("text", b"ox " * count)
        lines = f"documents 1\nwords 1\nothers 1\nterms 1\noccurrences {count}\nruns {runs}\npool {peak} of {budget}\n"
        got = suite.run(["build", "text", "set", "--budget", str(budget)])
        suite.check(f"{count} words in runs", got, (0, lines.encode(), b""))
        remove(suite, "set")


def refusals(suite):
    """Names that clash, missing collections, folders, words."""
    for ending in ["head", "words", "nonwords", "text", "places", "lex", "lexat", "post", "skip", "weights", "run", "mergea", "mergeb"]:
        suite.file(f"N.{ending}", K)
        clash = (13, b"", f"mg: the collection has the name of part {ending}\n".encode())
        suite.check(f"a collection named as {ending}", suite.run(["build", f"N.{ending}", "N"]), clash)
        suite.check(f"which stays ({ending})", (suite.folder / f"N.{ending}").read_bytes(), K)
        (suite.folder / f"N.{ending}").unlink()
    missing = (7, b"", b"mg: there is no such collection\n")
    suite.check("no collection", suite.run(["build", "none", "set"]), missing)
    suite.file("text", K)
    suite.check("a name in no folder", suite.run(["build", "text", "nowhere/set"]), FAILED)
    unread = not_understood(["build"])
    for budget in ["4095", "1073741825", "-1", "x", ""]:
        suite.check(f"a budget of {budget!r}", suite.run(["build", "text", "set", "--budget", budget]), unread)
    suite.check("nothing was built", (suite.folder / "set.head").exists(), False)
    with open("/dev/full", "wb") as full:
        unwritten = (4, None, b"mg: the output could not be written\n")
        suite.check("a full output of build", suite.run(["build", "text", "set"], stdout=full), unwritten)
    suite.check("and the set stands", suite.run(["decode", "set"]), (0, K, b""))
    remove(suite, "set")


def unreadable(suite):
    """What may not be read, by one who may write the set: the file's rights bind no superuser."""
    suite.file("secret", A)
    (suite.folder / "secret").chmod(0)
    if os.geteuid():
        return suite.run(["build", "secret", "set"])
    suite.folder.chmod(0o777)
    for file in suite.folder.glob("set.*"):
        file.chmod(0o666)

    def become_nobody():
        os.setgroups([])
        os.setgid(65534)
        os.setuid(65534)

    words = [suite.program, "build", "secret", "set"]
    run = subprocess.run(words, cwd=suite.folder, capture_output=True, preexec_fn=become_nobody, timeout=60)
    return run.returncode, run.stdout, run.stderr


def piped(suite, tool, name):
    """A tool and a collection that a pipe gives, as the shell's `<(..)` names one."""
    reader, writer = os.pipe()
    os.write(writer, A)
    os.close(writer)
    words = [suite.program, tool, f"/dev/fd/{reader}", name][: 4 if tool == "build" else 3]
    run = subprocess.run(words, cwd=suite.folder, capture_output=True, pass_fds=(reader,), timeout=60)
    os.close(reader)
    return run.returncode, run.stdout, run.stderr


def no_regular_files(suite):
    """Collections that are no regular files, or that may not be read: the set that was there stays as it was."""
    (suite.folder / "folder").mkdir(exist_ok=True)
    os.mkfifo(suite.folder / "fifo")
    with socket.socket(socket.AF_UNIX) as listener:
        listener.bind(str(suite.folder / "socket"))
    put_set(suite, "set", K, 2)
    before = read_parts(suite.folder / "set")
    rows = [(name, lambda tool, name=name: suite.run([tool, name, "set"][: 3 if tool == "build" else 2], A))
            for name in ["folder", "fifo", "socket", "/dev/null", "/dev/zero", "/dev/stdin"]]
    for name, run in rows + [("/dev/fd", lambda tool: piped(suite, tool, "set"))]:
        for tool in ("build", "scan"):
            suite.check(f"{tool} of {name}", run(tool), FAILED)
        suite.check(f"{name}: the set that was there", read_parts(suite.folder / "set"), before)
    suite.check("build of a file that may not be read", unreadable(suite), FAILED)
    suite.check("and the set that was there", read_parts(suite.folder / "set"), before)
    suite.check("which answers", suite.run(["query", "set"], b"cat\n"), (0, b"1\n3\n= 2\n", b""))
    for name in ("fifo", "socket", "secret"):
        (suite.folder / name).unlink()
    remove(suite, "set")


def left(suite, name, new):
    """A set that was K's and was to become another's: it is K's, none, or the other's."""
    status, out, _ = suite.run(["decode", "set"])
    fair = (status == 5 and out == b"") or status == 6 or (status == 0 and out in (K, new))
    suite.check(f"{name}: the old set, none, or the new one", fair, True)


def stopped(suite):
    """A build that is killed, or whose disk is full, over an old set."""
    new = b"".join(f"document {number} of a longer collection, with words {number * 7919 % 1000}\n\x02".encode() for number in range(40_000))
    suite.file("new", new)
    begun = time.monotonic()
    suite.run(["build", "new", "set", "--budget", "65536"])
    whole = time.monotonic() - begun
    for moment in range(20):
        put_set(suite, "set", K, 2)
        run = subprocess.Popen([suite.program, "build", "new", "set", "--budget", "65536"], cwd=suite.folder, stdout=subprocess.DEVNULL)
        time.sleep(whole * (moment + 0.5) / 20)
        run.send_signal(signal.SIGKILL)
        run.wait()
        left(suite, f"killed at moment {moment}", new)
    for most in [0, 1, 100, 4096, 20_000, 100_000, 400_000]:
        put_set(suite, "set", K, 2)

        def narrow(most=most):
            signal.signal(signal.SIGXFSZ, signal.SIG_IGN)
            resource.setrlimit(resource.RLIMIT_FSIZE, (most, most))

        run = subprocess.run([suite.program, "build", "new", "set"], cwd=suite.folder, capture_output=True, preexec_fn=narrow, timeout=300)
        suite.check(f"files of at most {most} bytes", (run.returncode, run.stderr), (2, b"mg: the store failed\n"))
        left(suite, f"files of at most {most} bytes", new)
    remove(suite, "set")


def trials(suite):
    """Made collections, tried: the reference makes the same texts and counts for itself."""
    suite.file("text", K)
    for seed, docs in [(7, 2000), (0, 1), (2**64 - 1, 20)]:
        got = suite.run(["trial", str(seed), str(docs)])
        suite.check(f"a trial of {seed} and {docs}", got, (0, trial(seed, docs), b""))
    usage = not_understood(["trial"])
    for words in [["7", "0"], ["7", "20001"], [str(2**64), "1"], ["7"]]:
        suite.check(f"a trial of {words}", suite.run(["trial", *words]), usage)
    suite.check("a trial changes no file", (suite.folder / "text").read_bytes(), K)
    suite.check("a trial leaves no file", (suite.folder / "set.head").exists(), False)


def migrations(suite):
    """Sets of both versions, made anew in version 2: each part is the collection's, and the old set stays."""
    for name, collection in SMALL + [(name, collection) for name, collection, _ in cases()]:
        for version in (1, 2):
            put_set(suite, "old", collection, version)
            before = read_parts(suite.folder / "old")
            documents = len(Collection(collection).documents)
            got = suite.run(["migrate", "old", "new"])
            suite.check(f"{name}: version {version} made anew", got, (0, f"documents {documents}\n".encode(), b""))
            wanted = build(Collection(collection), BUDGET, 2)
            suite.check(f"{name}: all parts of version {version} made anew", read_parts(suite.folder / "new"), wanted)
            suite.check(f"{name}: the old set of version {version} stays", read_parts(suite.folder / "old"), before)
            remove(suite, "old")
            remove(suite, "new")
    put_set(suite, "old", K, 1)
    same = (16, b"", b"mg: both names are the same\n")
    suite.check("a set made from itself", suite.run(["migrate", "old", "old"]), same)
    suite.check("which stays", suite.run(["decode", "old"]), (0, K, b""))
    unbuilt = suite.run(["migrate", "none", "new"])
    suite.check("a set made from none", (unbuilt[0], unbuilt[1]), (5, b""))
    suite.check("which makes none", (suite.folder / "new.head").exists(), False)
    unread = not_understood(["migrate"])
    for words in [["old"], ["old", "new", "more"], ["old", ""]]:
        suite.check(f"a migration of {words}", suite.run(["migrate", *words]), unread)
    with open("/dev/full", "wb") as full:
        unwritten = (4, None, b"mg: the output could not be written\n")
        suite.check("a full output of migrate", suite.run(["migrate", "old", "new"], stdout=full), unwritten)
    suite.check("and the new set stands", suite.run(["decode", "new"]), (0, K, b""))
    remove(suite, "old")
    remove(suite, "new")


def cut_sets(suite):
    """A set of which a part is cut is not made anew, and the set that was under the new name stays."""
    put_set(suite, "new", A, 2)
    before = read_parts(suite.folder / "new")
    for version in (1, 2):
        for part in ["text", "places", "lexat", "post", "skip", "weights"]:
            put_set(suite, "old", K, version)
            file = suite.folder / f"old.{part}"
            size = file.stat().st_size
            for cut in {1, min(5, size), size}:
                os.truncate(file, size - cut)
                line = f"mg: damaged: part {part} at 0: found {size - cut}, wanted {size} to {size}\n"
                name = f"version {version}, {part} without {cut} bytes"
                suite.check(name, suite.run(["migrate", "old", "new"]), (6, b"", line.encode()))
                suite.check(f"{name}: the set that was there", read_parts(suite.folder / "new"), before)
    suite.check("which answers", suite.run(["query", "new"], b"a\n"), (0, b"1\n= 1\n", b""))
    remove(suite, "old")
    remove(suite, "new")


def kept_set(suite):
    """A set of version 1 with 3,000 documents that is kept as a file: made anew, it answers the same lines."""
    with zipfile.ZipFile(KEPT) as archive:
        archive.extractall(suite.folder)
        collection, asked, replies = (archive.read(name) for name in ("collection", "asked", "replies"))
    before = read_parts(suite.folder / "old")
    suite.check("the kept set made anew", suite.run(["migrate", "old", "new"]), (0, b"documents 3000\n", b""))
    suite.check("the kept set stays", read_parts(suite.folder / "old"), before)
    for name in ("old", "new"):
        suite.check(f"the kept set {name}: decode", suite.run(["decode", name]), (0, collection, b""))
        suite.check(f"the kept set {name}: query", suite.run(["query", name], asked), (0, replies, b""))
    made = read_parts(suite.folder / "new")
    suite.check("the kept set made anew stands", (check(made).data, made["head"][:8]), (collection, b"MGROWv2\n"))
    remove(suite, "old")
    remove(suite, "new")


def limits(suite):
    """The greatest collections and the first ones beyond them; minutes, and gigabytes of files."""
    for count, status, line in [(1 << 24, 0, b""), ((1 << 24) + 1, 9, b"mg: more than 16777216 documents\n")]:
        suite.file("text", b"\x02" * count)
        got = suite.run(["build", "text", "set"])
        suite.check(f"{count} documents", (got[0], got[2]), (status, line))
        remove(suite, "set")
    words = b"".join(b"%06x " % number for number in range(1 << 22))
    for data, status, line in [(words, 0, b""), (words + b"g", 10, b"mg: more than 4194304 distinct words\n")]:
        suite.file("text", data)
        got = suite.run(["build", "text", "set"])
        suite.check("four million words", (got[0], got[2]), (status, line))
        remove(suite, "set")


def many_runs(suite):
    """More runs than two rounds can merge: both working files are used, and the lists are those of one run."""
    documents = [b"%x %x " % (number % 97, number % 89) * 300 + b"\x02" for number in range(2400)]
    suite.file("text", b"".join(documents))
    parts = []
    for budget in (4096, BUDGET):
        suite.run(["build", "text", "set", "--budget", str(budget)])
        left = read_parts(suite.folder / "set")
        parts.append([left[ending] for ending in SETTLED])
    suite.check("more than 4,096 runs", parts[0] == parts[1], True)
    suite.check("they are decoded", suite.run(["decode", "set"]), (0, b"".join(documents), b""))
    remove(suite, "set")


PARTS = [kinds, many_runs, bytes_of_parts, refusals, no_regular_files, stopped, trials, migrations, cut_sets, kept_set]
SLOW = [limits]
