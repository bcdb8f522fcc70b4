"""Archives that mg-shards builds: where collections are cut, what is merged, what a command that goes on does, and refusals."""

import fcntl
import os
import shutil
import signal
import subprocess
import time

from files import K
from kinds import CLOSE, Draws, cases, mail
from shards_asked import Tool
from transcripts import ROOT, fresh_folder, markdown_blocks, run_block

PARTS_OF_A_SET = ["head", "words", "nonwords", "text", "places", "lex", "lexat", "post", "skip", "weights", "run"]
UNBUILT = b"mg-shards: %s: nothing is built under this name, or not all of it\n"


def same_parts(first, second):
    """Whether two sets have the same bytes in every part."""
    return [part for part in PARTS_OF_A_SET if open(f"{first}.{part}", "rb").read() != open(f"{second}.{part}", "rb").read()]


def documents_of(collection):
    """The documents with the bytes that close them."""
    pieces = [piece + CLOSE for piece in collection.split(CLOSE)]
    pieces[-1] = pieces[-1][:-1]
    return [piece for piece in pieces if piece]


def page(suite):
    """The example's page, run as it stands."""
    with fresh_folder(suite) as folder:
        shutil.copy(ROOT / "examples" / "letters.mail", folder)
        count = sum(run_block(suite, "examples/shards", block, folder) for block in markdown_blocks(ROOT / "examples" / "shards" / "README.md"))
        suite.check("commands of examples/shards", count, 8)


def whole(suite):
    """The merged set has the bytes of the set of the whole, whatever the shards; and it is decoded, checked and asked."""
    tool = Tool(suite)
    for seed, (name, collection, _) in enumerate(cases(), 1):
        suite.file("text", collection)
        suite.check(f"{name}: the whole is built", suite.run(["build", "text", "whole", "--budget", "4096"])[0], 0)
        words = ["--shards", str(1 + seed // 2)] if seed % 2 else ["--bytes", str(len(collection) // (1 + seed // 3))]
        got = tool.build("text", "shards", *words)
        rows = tool.rows("shards")
        documents = len(documents_of(collection))
        shards = int(got[1].split()[1]) if got[0] == 0 else got
        wanted = b"shards %d\nsets 1\ndocuments %d\nbytes %d\n" % (shards, documents, len(collection))
        suite.check(f"{name}: build of {words}", got, (0, wanted, b""))
        suite.check(f"{name}: the list", [row[:3] for row in rows], [["0", str(documents), str(len(collection))]])
        suite.check(f"{name}: parts that differ", same_parts(suite.folder / "shards" / rows[0][3], suite.folder / "whole"), [])
        suite.check(f"{name}: decode", tool.run(["decode", "shards"]), (0, collection, b""))
    stands = b"stands %d documents %d bytes\n" % (documents, len(collection))
    suite.check("check", tool.run(["check", "shards"]), (0, stands, b""))
    line = b".set query ranked\nab\n.set query boolean\n!ab & (\n"
    suite.check("a session over one set is mg's own", tool.run(["query", "shards"], line), suite.run(["query", "whole"], line))


# In place of mg where only the cuts matter: a set is its head, with the documents and bytes that were counted, and the text.
COUNTING = """#!/usr/bin/python3 -I
import sys
tool, *names = [word for word in sys.argv[1:] if word not in ("--budget", "4096")]
if tool == "build":
    data = open(names[0], "rb").read()
    documents = data.count(2) + (not data.endswith(b"\\x02") and data != b"")
    open(names[1] + ".text", "wb").write(data)
    open(names[1] + ".head", "wb").write(b"MGROWv2\\n%b%20b%b%40b" % (documents.to_bytes(4, "big"), b"", len(data).to_bytes(8, "big"), b""))
elif tool == "merge":
    sys.exit(9)
else:
    sys.stdout.buffer.write(open(names[0] + ".text", "rb").read())
"""


def cut(suite):
    """Shards of at most so many bytes, and so many shards: each has whole documents, and all have all of them."""
    tool = Tool(suite)
    tool.put_mg(COUNTING)
    draws = Draws(5)
    for name, collection in [
        ("nothing", b""), ("one byte", CLOSE), ("empty documents", CLOSE * 9), ("an open end", b"ab\x02" * 4 + b"c" * 70_000), ("no end", b"a b"),
        ("long documents", b"".join(b"x" * draws.below(200_000) + CLOSE for _ in range(6))),
        ("documents at the ends of pages", b"".join(b"y" * (65_534 + size) + CLOSE for size in range(4))),
    ]:
        suite.file("text", collection)
        for words in (["--shards", "3"], ["--shards", "99"], ["--bytes", "65537"], ["--bytes", "2"]):
            got = tool.build("text", "shards", *words)
            suite.check(f"{name}: {words}", (got[0], got[2]), (0, b""))
            cut_well(suite, f"{name}: {words}", collection, tool.rows("shards"), words)
            suite.check(f"{name}: {words}: decode", tool.run(["decode", "shards"]), (0, collection, b""))


def cut_well(suite, name, collection, rows, words):
    """Every shard has whole documents, the list tells them, and the shards are as many or as large as was asked."""
    documents = documents_of(collection)
    shards = [(suite.folder / "shards" / row[3]).with_suffix(".text").read_bytes() for row in rows]
    held = [documents_of(shard) for shard in shards]
    suite.check(f"{name}: documents", [document for shard in held for document in shard], documents)
    befores = [sum(map(len, held[:place])) for place in range(len(held))]
    told = [[str(before), str(len(inside)), str(len(shard))] for before, inside, shard in zip(befores, held, shards)]
    suite.check(f"{name}: the list", [row[:3] for row in rows], told)
    suite.check(f"{name}: none empty", [shard for shard in shards if not shard], [b""] * (not collection))
    number = int(words[1])
    if words[0] == "--shards":
        # No cut is further from its place than one document is long.
        longest = max(map(len, documents), default=0)
        suite.check(f"{name}: how many", len(shards) <= number, True)
        suite.check(f"{name}: about as many bytes", [len(shard) for shard in shards if len(shard) > len(collection) / number + longest], [])
    else:
        suite.check(f"{name}: none longer", [len(shard) for shard, inside in zip(shards, held) if len(shard) > number and len(inside) > 1], [])
        fits = [len(shard) for shard, after in zip(shards, held[1:]) if len(shard) + len(after[0]) <= number]
        suite.check(f"{name}: none smaller than it need be", fits, [])


def limits(suite):
    """Neighbours are merged as far as a set goes: those that are left do not fit together."""
    for limit, shards, sizes in [(9, 8, None), (4, 12, None), (20, 7, None), (3, 5, [1] * 10), (5, 6, [400, 1, 1, 1, 400, 1, 400, 1, 1, 1, 1, 1])]:
        tool = Tool(suite, limit)
        draws = Draws(limit)
        sizes = sizes or [1 + draws.below(300) for _ in range(40)]
        collection = b"".join(b"a " * size + CLOSE for size in sizes)
        suite.file("text", collection)
        got = tool.build("text", "shards", "--shards", str(shards))
        suite.check(f"at most {limit} documents", (got[0], got[2]), (0, b""))
        counts = [int(row[1]) for row in tool.rows("shards")]
        fits = [pair for pair in zip(counts, counts[1:]) if sum(pair) <= limit]
        suite.check(f"at most {limit} documents: neighbours that would fit, of {counts} of {shards} shards", fits, [])
        suite.check(f"at most {limit} documents: decode", tool.run(["decode", "shards"]), (0, collection, b""))
        suite.check(f"at most {limit} documents: check", tool.run(["check", "shards", "--jobs", "1"]), (0, b"stands %d documents %d bytes\n" % (len(sizes), len(collection)), b""))
        left = sorted(name for name in os.listdir(suite.folder / "shards") if not name[0].isdigit())
        folders = sorted(name for name in os.listdir(suite.folder / "shards") if name[0].isdigit())
        suite.check("what is left", (left, folders), (["lock", "plan", "sets"], sorted(row[3].split("/")[0] for row in tool.rows("shards"))))


# In place of mg where a set has at most so many bytes as the variable LIMIT tells, in a build and in a merge.
SMALL = """#!/usr/bin/python3 -I
import os, sys
tool, *names = [word for word in sys.argv[1:] if word not in ("--budget", "4096")]
if tool == "decode":
    sys.exit(sys.stdout.buffer.write(open(names[0] + ".text", "rb").read()) * 0)
sources = [names[0]] if tool == "build" else [name + ".text" for name in names[:2]]
data = b"".join(open(name, "rb").read() for name in sources)
if len(data) > int(os.environ["LIMIT"]):
    print("mg: more than 4194304 distinct words", file=sys.stderr)
    sys.exit(10)
documents = data.count(2) + (not data.endswith(b"\\x02") and data != b"")
open(names[-1] + ".text", "wb").write(data)
open(names[-1] + ".head", "wb").write(b"MGROWv2\\n%b%20b%b%40b" % (documents.to_bytes(4, "big"), b"", len(data).to_bytes(8, "big"), b""))
"""


def halved(suite):
    """A shard beyond a limit is cut again; what is left does not fit together, and a document beyond the limit is told."""
    tool = Tool(suite, 100)
    tool.put_mg(SMALL)
    draws = Draws(suite.seed)
    for shards in (1, 3, 4):
        documents = [b"x" * draws.below(60) + CLOSE for _ in range(25)]
        suite.file("text", b"".join(documents))
        name = f"at most 100 bytes, {shards} shards (seed {suite.seed})"
        suite.check(name, tool.build("text", "shards", "--shards", str(shards))[::2], (0, b""))
        sizes = [int(row[2]) for row in tool.rows("shards")]
        suite.check(f"{name}: sizes", (max(sizes) <= 100, [pair for pair in zip(sizes, sizes[1:]) if sum(pair) <= 100]), (True, []))
        suite.check(f"{name}: decode", tool.run(["decode", "shards"]), (0, b"".join(documents), b""))
    suite.file("text", b"a\x02" + b"x" * 100 + b"\x02b\x02")
    got = tool.build("text", "shards", "--shards", "1")
    told = b"mg-shards: shard 1 of 1: mg: more than 4194304 distinct words\n"
    suite.check("a document beyond the limit", (got[0], got[2][: len(told)]), (10, told))


FAILING = """#!/bin/sh
echo "$*" >> "$RUNS"
case "$*" in *"$FAILS"*) echo 'mg: the store failed' >&2; exit 2 ;; esac
exec "$REAL" "$@"
"""


def runs_of(tool, word):
    """How often mg was run for a build or a merge, by what it made."""
    path = tool.folder / "runs"
    text = path.read_text() if path.exists() else ""
    path.write_text("")
    return sorted(line.split("/work/new.")[1].split(".")[0] for line in text.splitlines() if line.startswith(word))


def going_on(suite):
    """A shard that failed is told, is done again alone, and the same command goes on; what is done is not done twice."""
    tool = Tool(suite)
    tool.put_mg(FAILING)
    tool.environment |= {"RUNS": str(tool.folder / "runs"), "FAILS": "/new.3."}
    suite.file("text", mail(Draws(3)))
    got = tool.build("text", "shards", "--shards", "5")
    folder = suite.folder / "shards"
    told = (f"mg-shards: shard 3 of 5: mg: the store failed\nmg-shards: failed 1, waiting for these 2; the same command goes on, "
            f"and mg-shards step {folder} 3 does the first alone\n")
    suite.check("a shard that failed", got, (2, b"", told.encode()))
    suite.check("no set is listed", tool.run(["query", "shards"], b"a\n"), (5, b"", UNBUILT % str(folder).encode()))
    suite.check("what was built", (runs_of(tool, "build"), runs_of(tool, "merge")), (["1", "2", "3", "4", "5"], []))
    again = ["build", "text", "shards", "--budget", "4096", "--shards", "5"]
    suite.check("it fails again", tool.run([*again, "--jobs", "2"]), got)
    suite.check("it alone is built again", runs_of(tool, "build"), ["3"])
    tool.environment["FAILS"] = "/new.1-3."
    suite.check("it is done alone", tool.run(["step", "shards", "3"]), (0, b"", b""))
    suite.check("it is done once", tool.run(["step", "shards", "3"]), (0, b"", b""))
    suite.check("it was built once", runs_of(tool, "build"), ["3"])
    told = told.replace("shard 3 of 5", "merge 1-3 of 5").replace("these 2", "these 1").replace(" 3 does", " 1-3 does")
    suite.check("a merge that failed", tool.run(again), (2, b"", told.encode()))
    tool.environment["FAILS"] = "nothing of this"
    runs_of(tool, "merge")
    suite.check("the rest is done", tool.run(again)[::2], (0, b""))
    suite.check("what was merged", runs_of(tool, "merge"), ["1-3", "1-5"])
    suite.check("nothing is left to do", tool.run(again)[::2], (0, b""))
    suite.check("a step of what is done", tool.run(["step", "shards", "2"]), (0, b"", b""))
    suite.check("nothing was run", (tool.folder / "runs").read_text(), "")
    suite.run(["build", "text", "whole", "--budget", "4096"])
    suite.check("parts that differ", same_parts(folder / "1-5" / "set", suite.folder / "whole"), [])


def killed(suite):
    """A build that is killed at any moment, by a signal that it cannot refuse, goes on; the set is that of the whole."""
    tool = Tool(suite)
    suite.file("text", mail(Draws(4)))
    suite.run(["build", "text", "whole", "--budget", "4096"])
    words = [tool.launcher, "build", "text", "shards", "--budget", "4096", "--shards", "6", "--jobs", "1"]
    started = time.monotonic()
    tool.build("text", "shards", "--shards", "6")
    took = time.monotonic() - started
    shutil.rmtree(suite.folder / "shards")
    draws = Draws(suite.seed)
    kills = 0
    for _ in range(6):
        process = subprocess.Popen(words, cwd=suite.folder, env=tool.environment, stdout=subprocess.PIPE, stderr=subprocess.PIPE, start_new_session=True)
        try:
            process.wait(took * (1 + draws.below(50)) / 200)
        except subprocess.TimeoutExpired:
            kills += 1
            # Its own group: what it started is killed with it.
            os.killpg(process.pid, signal.SIGKILL)
        process.communicate()
    suite.check("it was killed", kills > 0, True)
    suite.check(f"what was killed goes on (seed {suite.seed})", tool.run(words[1:])[::2], (0, b""))
    suite.check("parts that differ after kills", same_parts(suite.folder / "shards" / "1-6" / "set", suite.folder / "whole"), [])
    suite.check("nothing else is left", sorted(os.listdir(suite.folder / "shards")), ["1-6", "lock", "plan", "sets"])


def refusals(suite):
    """Words, folders and collections that are not taken, and what changed."""
    tool = Tool(suite)
    suite.file("text", K)
    folder = str(suite.folder / "shards").encode()
    suite.check("an archive", tool.build("text", "shards", "--shards", "2")[::2], (0, b""))
    for words in [[], ["index"], ["build", "text", "unmade"], ["build", "text", "unmade", "--shards", "0"], ["build", "text", "unmade", "--shards", "2", "--bytes", "3"],
                  ["build", "text", "unmade", "--bytes", "4294967296"], ["build", "text", "unmade", "--shards", "2", "--engine", "none"], ["query"],
                  ["build", "text", "unmade", "--shards", "2", "--sshloginfile", "text"], ["step", "shards", "9"], ["step", "shards", "2-1"]]:
        status, out, told = tool.run(words)
        suite.check(f"words {words}", (status, out, told.splitlines()[-1][:9]), (1, b"", b"mg-shards"))
    for name, words, status, told in [
        ("no collection", ["build", "none", "unmade", "--shards", "2"], 7, b"none: there is no such collection"),
        ("a folder", ["build", "shards", "unmade", "--shards", "2"], 2, b"shards: Is a directory"),
        ("other words", ["build", "text", "shards", "--shards", "3"], 20, folder + b": it was begun with --shards 2 --budget 4096 of "
         + str(suite.folder / "text").encode() + b", as that was then; use these words, or another folder"),
        ("no archive", ["query", "none"], 5, str(suite.folder / "none").encode() + b": nothing is built under this name, or not all of it"),
        ("no archive to do a step of", ["step", "none", "1"], 5, str(suite.folder / "none").encode() + b": no archive was begun here"),
    ]:
        suite.check(f"refusal: {name}", tool.run(words), (status, b"", b"mg-shards: " + told + b"\n"))
    suite.check("what was refused is not made", (suite.folder / "unmade").exists() or (suite.folder / "none").exists(), False)
    (suite.folder / "other").mkdir()
    suite.file("other/notes", b"")
    got = tool.run(["build", "text", "other", "--shards", "2"])
    suite.check("another folder", got, (20, b"", f"mg-shards: {suite.folder}/other: it is no archive in shards, it has notes\n".encode()))
    suite.check("another folder is left", os.listdir(suite.folder / "other"), ["notes"])
    with open(suite.folder / "shards" / "lock") as lock:
        fcntl.flock(lock, fcntl.LOCK_SH)
        got = tool.run(["build", "text", "shards", "--shards", "2", "--budget", "4096"])
    suite.check("two at work", got, (20, b"", b"mg-shards: " + folder + b": another mg-shards is at work here\n"))
    shutil.rmtree(suite.folder / "other")


def changed(suite):
    """A collection that changes between two steps, or whose shards do not end where documents end any more."""
    tool = Tool(suite)
    tool.put_mg(FAILING)
    tool.environment |= {"RUNS": os.devnull, "FAILS": "/new.2."}
    suite.file("text", K)
    suite.check("a shard fails", tool.build("text", "shards", "--shards", "2")[0], 2)
    times = os.stat(suite.folder / "text")
    suite.file("text", K + b"x")
    text = str(suite.folder / "text").encode()
    told = b"mg-shards: " + text + b": the collection changed after it was cut: size was 39, then 40\n"
    suite.check("a longer collection", tool.run(["step", "shards", "2"]), (11, b"", told))
    suite.check("a longer collection is not gone on with", tool.run(["build", "text", "shards", "--shards", "2", "--budget", "4096"])[0], 20)
    suite.file("text", K.replace(CLOSE, b"-"))
    os.utime(suite.folder / "text", ns=(times.st_atime_ns, times.st_mtime_ns))
    (suite.folder / "shards" / "work" / "done" / "1").unlink()
    shutil.rmtree(suite.folder / "shards" / "1")
    told = b"mg-shards: the collection changed after it was cut: a shard does not end where a document ends\n"
    suite.check("other documents", tool.run(["step", "shards", "1"]), (11, b"", told))


def parallel(suite):
    """GNU parallel as engine, on this machine and by a file of hosts; a shard that failed."""
    if not shutil.which("parallel"):
        suite.check("parallel is installed (Debian's package parallel)", False, True)
        return
    tool = Tool(suite)
    suite.file("text", mail(Draws(6)))
    suite.file("hosts", b"1/:\n")
    suite.run(["build", "text", "whole", "--budget", "4096"])
    for name, words in [("parallel", []), ("a name with blanks {} $x '", ["--sshloginfile", "hosts"])]:
        got = tool.build("text", name, "--shards", "5", "--engine", "parallel", *words)
        suite.check(f"parallel {words}", got[::2], (0, b""))
        suite.check(f"parallel {words}: parts that differ", same_parts(suite.folder / name / "1-5" / "set", suite.folder / "whole"), [])
    tool.put_mg(FAILING)
    tool.environment |= {"RUNS": os.devnull, "FAILS": "/new.2."}
    got = tool.build("text", "parallel", "--shards", "3", "--engine", "parallel")
    suite.check("parallel: a shard that failed", (got[0], got[2].splitlines()[0]), (2, b"mg-shards: shard 2 of 3: mg: the store failed"))
    got = tool.build("text", "parallel", "--shards", "3", "--engine", "parallel", "--sshloginfile", "none")
    suite.check("parallel: no file of hosts", (got[0], got[2][:21]), (21, b"mg-shards: parallel: "))


def odd_names(suite):
    """make as engine in a folder whose name has what make and shells read as signs."""
    tool = Tool(suite)
    suite.file("text", K)
    name = "a $(b) #'\"%\\: c"
    suite.check("odd names", tool.build("text", name, "--shards", "2")[::2], (0, b""))
    suite.check("odd names: decode", tool.run(["decode", name]), (0, K, b""))


PARTS = [page, whole, cut, limits, halved, going_on, killed, refusals, changed, parallel, odd_names]
