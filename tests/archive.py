"""mg-archive: additions to an archive, what is known, the lock, killing, readers meanwhile, and what is refused."""

import fcntl
import gzip
import os
import re
import shutil
import signal
import subprocess
import sys
import time

import archive_finds
from archiving import POOL, Archives, mbox, messages
from transcripts import ROOT, fresh_folder

# Runs mg-archive, and ends it by SIGKILL right before the event of this number; the events are told where it is 0. An
# event is a call by which the library opens, makes, renames or removes a file, locks one or starts a program.
KILLED = """
import os, signal, sys
moment, program = int(sys.argv[1]), sys.argv[2]
sys.argv = [program, *sys.argv[3:]]
sys.path.insert(0, os.path.dirname(os.path.realpath(program)))
from mg_archives import archive, archive_add, archive_program, collect  # what these need is loaded too
events = ["os.rename", "os.remove", "os.mkdir", "os.rmdir", "subprocess.Popen", "fcntl.flock", "open"]
seen = []
def watch(event, values):
    if event in events and not (event == "open" and str(values[0]).endswith(".pyc")):
        seen.append((event, *map(str, values[:2])))
        if len(seen) == moment:
            os.kill(os.getpid(), signal.SIGKILL)
sys.addaudithook(watch)
status = archive.main()
if not moment:
    for event in list(seen):
        print("\\t".join(event).replace("\\n", " "), file=sys.stderr)
sys.exit(status)
"""


def additions(case):
    """Mailboxes that overlap: what is known is passed over, and an addition without anything new changes nothing."""
    found = messages(14)
    documents = [message.document() for message in found]
    case.file("a.mbox", mbox(found[:8]))
    case.file("b.mbox", mbox(found[5:] + found[10:12]))
    case.added("a new archive", "mail", (8, 0, 8), "mbox", "a.mbox")
    case.holds("a new archive", "mail", documents[:8])
    case.check("a new archive: its files", case.entries("mail"), ["1", "current", "lock"])
    case.added("a mailbox with known and doubled messages", "mail", (6, 5, 14), "mbox", "b.mbox")
    case.holds("two mailboxes", "mail", documents)
    case.check("the generation before stays", case.entries("mail"), ["1", "2", "current", "lock"])
    case.added("nothing new", "mail", (0, 19, 14), "mbox", "a.mbox", "b.mbox")
    case.check("nothing new: the set", (case.set_of("mail"), case.entries("mail")), ("2/set", ["1", "2", "current", "lock"]))
    rows = [line.split(b"\t") for line in (case.folder / "mail/2/set.table").read_bytes().splitlines()]
    wanted = [[message.identity, message.day + b"T11:%02d:00+00:00" % number, message.sender, message.subject]
              for number, message in enumerate(found, 1)]
    case.check("the table", [row[4:] for row in rows], wanted)
    case.check("the table's sources", [row[1] for row in rows],
               [os.fsencode(case.folder / "a.mbox")] * 8 + [os.fsencode(case.folder / "b.mbox")] * 6)
    status, out, err = case.run("mail", "status")
    sizes = sum(path.stat().st_size for path in (case.folder / "mail/2").iterdir())
    length = sum(len(document) + 1 for document in documents)
    told = b"documents 14\nbytes %d\nset %d (%d %%)\ncurrent mail/2/set\nadditions 2\nlast " % (length, sizes, sizes * 100 // length)
    case.check("status", (status, out[: len(told)], err), (0, told, b""))
    last = rb"\d{4}-\d\d-\d\dT\d\d:\d\d:\d\d[+-]\d{4} 6 documents, mbox %s\n" % re.escape(os.fsencode(case.folder / "b.mbox"))
    case.check("status: the last addition", re.fullmatch(last, out[len(told):]) is not None or out, True)
    status, out, _ = case.run("mail", "add", "mbox", "-", given=mbox(messages(1, first=90)))
    case.check("a pipe, with the pool that mg takes", (status, out), (0, b"added 1\nknown 0\ndocuments 15\n"))
    case.check("two generations stay", case.entries("mail"), ["2", "3", "current", "lock"])


def nameless(case):
    """Messages without Message-ID are known by their text."""
    bodies = [b"Subject: s\n\nthe crane\n", b"Subject: s\n\nthe winch\n", b"Subject: s\n\nthe crane\n"]
    case.file("n.mbox", b"".join(b"From x@harbour.example Fri Mar  3 11:12:00 2023\n%s\n" % body for body in bodies))
    case.added("messages without Message-ID", "mail", (2, 1, 2), "mbox", "n.mbox")
    case.added("the same again", "mail", (0, 3, 2), "mbox", "n.mbox")


def maildirs(case):
    """A message is known by its file's name without flags, and in another folder by its Message-ID."""
    found = messages(5)
    for number, message in enumerate(found[:3]):
        case.file(f"Mail/new/170000000{number}.M1.host", message.source())
    for box in ("cur", "tmp", ".Sent/cur", ".Sent/new", ".Sent/tmp"):
        (case.folder / "Mail" / box).mkdir(parents=True)
    case.added("a Maildir", "mail", (3, 0, 3), "maildir", "Mail")
    os.rename(case.folder / "Mail/new/1700000001.M1.host", case.folder / "Mail/cur/1700000001.M1.host:2,S")
    os.rename(case.folder / "Mail/new/1700000002.M1.host", case.folder / "Mail/.Sent/cur/1700000002.M1.host:2,RS")
    case.file("Mail/.Sent/cur/1700000005.M1.host:2,S", found[3].source())
    case.file("Mail/cur/1700000003.M1.host:2,", b"not looked at: the name is known")
    os.rename(case.folder / "Mail/cur/1700000003.M1.host:2,", case.folder / "Mail/cur/1700000000.M1.host:2,F")
    case.added("a Maildir whose files were renamed and moved", "mail", (1, 4, 4), "maildir", "Mail/")
    case.holds("a Maildir", "mail", [message.document() for message in found[:4]])
    case.file("all.mbox", mbox(found))
    case.added("the same messages from an mbox", "mail", (1, 4, 5), "mbox", "all.mbox")


def folders(case):
    """A file is known by its path, size and time, and where these differ by its bytes; a changed one is a new document."""
    for name, content in [("a", b"the crane\n"), ("b", b"the winch\n"), ("sub/c", b"the crane\n")]:
        case.file("notes/" + name, content)
    case.added("a folder with the archive in it", "notes/kept", (3, 0, 3), "folder", "notes")
    case.added("the folder again", "notes/kept", (0, 3, 3), "folder", "notes/")
    os.utime(case.folder / "notes/a", (1, 1))
    case.added("a file with another time", "notes/kept", (0, 3, 3), "folder", "notes")
    case.file("notes/b", b"the gulls\n")
    case.added("a file with other bytes", "notes/kept", (1, 2, 4), "folder", "notes")
    case.holds("a folder", "notes/kept", [b"the crane\n", b"the winch\n", b"the crane\n", b"the gulls\n"])
    # What has the size and the time that are known is not read.
    known = os.stat(case.folder / "notes/b").st_mtime_ns
    case.file("notes/b", b"THE GULLS\n")
    os.utime(case.folder / "notes/b", ns=(known, known))
    case.added("a file with its size and time", "notes/kept", (0, 3, 4), "folder", "notes")
    case.file("packed.gz", gzip.compress(b"the tide\n"))
    status, out, err = case.add("notes/kept", "files", given=os.fsencode(case.folder / "notes/a") + b"\npacked.gz\n")
    case.check("a list of files", (status, out, err), (0, b"added 1\nknown 1\ndocuments 5\n", b""))
    os.symlink("a", case.folder / "notes/link")
    status, out, _ = case.add("other", "folder", "notes")
    kept = sum(len(names) for _, _, names in os.walk(case.folder / "notes/kept"))
    told = b"added 3\nknown 0\ndocuments 3\nlinks 1\nmade %d\n" % kept
    case.check("a folder with a link and another archive in it", (status, out), (0, told))
    case.added("by a filter", "shouted", (1, 0, 1), "--filter", "tr a-z A-Z", "files", "notes/a")
    case.check("by a filter: the document", case.decoded("shouted"), [b"THE CRANE\n"])


def odd(case):
    """A file that is no text is left out and told; the others come."""
    case.file("bad/a", b"the crane\n")
    case.file("bad/b", b"x\0y\n")
    status, out, err = case.add("notes", "folder", "bad")
    told = b"mg-archive: left out " + os.fsencode(case.folder / "bad/b") + b": a null byte at 1:2\n"
    case.check("a null byte", (status, out, err), (5, b"added 1\nknown 0\ndocuments 1\nskipped 1\n", told))
    status, out, _ = case.add("notes", "--skip", "folder", "bad")
    case.check("a null byte that is left out by choice", (status, out), (0, b"added 0\nknown 1\ndocuments 1\nskipped 1\n"))
    status, out, _ = case.add("notes", "--replace", "?", "folder", "bad")
    case.check("a null byte that is replaced", (status, out), (0, b"added 1\nknown 1\ndocuments 2\nreplaced 1\n"))
    case.holds("a null byte", "notes", [b"the crane\n", b"x?y\n"])


def locked(case):
    """While one addition waits for its source, a second one is refused, and finds answer."""
    found = messages(4)
    case.file("a.mbox", mbox(found[:3]))
    case.file("b.mbox", mbox(found))
    case.added("before", "mail", (3, 0, 3), "mbox", "a.mbox")
    words = [case.program, "mail", "add", *POOL, "mbox", "-"]
    first = subprocess.Popen(words, cwd=case.folder, stdin=subprocess.PIPE, stdout=subprocess.PIPE)
    while not (case.folder / "mail/adding").exists():
        time.sleep(0.01)
    who = b"process %d of " % first.pid
    case.refused("a second addition", 6, who, "mail", "add", "mbox", "b.mbox")
    case.check("finding meanwhile", case.run("mail", "find", "--count", "NOT", "zebra")[:2], (0, b"3\n"))
    out = first.communicate(mbox(found))[0]
    case.check("the first addition", (first.returncode, out), (0, b"added 1\nknown 3\ndocuments 4\n"))
    case.added("after it", "mail", (0, 4, 4), "mbox", "b.mbox")


def killed(case, moment, archive, *words):
    """A run that ends by SIGKILL at an event."""
    command = ["/usr/bin/python3", "-IB", "-c", KILLED, str(moment), case.program, archive, "add", *POOL, *words]
    return subprocess.run(command, cwd=case.folder, capture_output=True, timeout=300)


def killing(case):
    """An addition is killed at twenty of its events: the archive answers as before, and the next addition does all."""
    found = messages(9)
    documents = [message.document() for message in found]
    case.file("a.mbox", mbox(found[:4]))
    case.file("b.mbox", mbox(found[4:7]))
    case.file("c.mbox", mbox(found[6:]))
    case.added("before the killing", "start", (4, 0, 4), "mbox", "a.mbox")
    case.added("before the killing", "start", (3, 0, 7), "mbox", "b.mbox")
    whole = copied(case, "start", "whole")
    run = killed(case, 0, whole, "mbox", "c.mbox")
    case.check("an addition that is watched", (run.returncode, run.stdout), (0, b"added 2\nknown 1\ndocuments 9\n"))
    events = run.stderr.decode().splitlines()
    last = next(place for place, event in enumerate(events, 1) if event.startswith("os.rename") and "current.new" in event)
    answers = {after: [case.run(name, *asked) for asked in ASKED] for after, name in [(False, "start"), (True, whole)]}
    steps = [place for place, event in enumerate(events, 1) if event.startswith(("os.rename", "os.mkdir", "subprocess"))]
    moments = sorted({*steps, *range(3, len(events), max(1, len(events) // 14)), last, last + 1})
    case.check("moments of killing", len(moments) >= 20, True)
    for moment in moments:
        after = moment > last
        name = f"killed at {moment} of {len(events)} ({events[moment - 1][:60]!r})"
        archive = copied(case, "start", "tried")
        case.check(name, killed(case, moment, archive, "mbox", "c.mbox").returncode, -signal.SIGKILL)
        got = [case.run(archive, *asked) for asked in ASKED]
        case.check(f"{name}: answers", without_name(got), without_name(answers[after]))
        wanted = b"added %d\nknown %d\ndocuments 9\n" % ((0, 3) if after else (2, 1))
        case.check(f"{name}: the next addition", case.add(archive, "mbox", "c.mbox"), (0, wanted, b""))
        case.holds(name, archive, documents)
        left = [entry for entry in case.entries(archive) if entry not in ("current", "lock")]
        case.check(f"{name}: what is left", (len(left) <= 2, all(map(str.isdigit, left))), (True, True))
        shutil.rmtree(case.folder / archive)


ASKED = [("status",), ("find", "crane", "silt", "winch"), ("find", "--count", "NOT", "zebra"), ("show", "7")]


def without_name(runs):
    """What runs printed, without what depends on the archive's name, the time, and the numbers of generations."""
    gone = re.compile(rb"^(?:current|last|set) .*\n", re.M)
    return [(status, gone.sub(b"", out), err) for status, out, err in runs]


def copied(case, archive, name):
    shutil.copytree(case.folder / archive, case.folder / name)
    return name


def stand_in(case, name, script):
    """A folder with mg-archive and a program beside it that it takes for mg."""
    folder = case.folder / name
    folder.mkdir(exist_ok=True)
    if not (folder / "mg-archive").exists():
        (folder / "mg-archive").symlink_to(ROOT / "contrib" / "mg-archive")
    (folder / "mg").write_text(f"#!/bin/sh\n{script}\n")
    (folder / "mg").chmod(0o755)


def children(case):
    """The programs that a killed addition ran end with it, so that none writes into the next one."""
    found = messages(3)
    case.file("a.mbox", mbox(found))
    stand_in(case, "slow", "echo $$ > pid; exec sleep 600")
    words = [case.folder / "slow/mg-archive", "mail", "add", "mbox", "a.mbox"]
    run = subprocess.Popen(words, cwd=case.folder, stdout=subprocess.DEVNULL)
    told = case.folder / "mail/pid"
    while not (told.exists() and told.read_text().endswith("\n")):
        time.sleep(0.01)
    run.send_signal(signal.SIGKILL)
    run.wait()
    end = time.monotonic() + 20
    process = f"/proc/{told.read_text().strip()}/cmdline"
    alive = lambda: os.path.exists(process) and b"sleep" in open(process, "rb").read()
    while alive() and time.monotonic() < end:
        time.sleep(0.01)
    case.check("a killed addition's program", alive(), False)
    os.remove(told)
    case.added("after that", "mail", (3, 0, 3), "mbox", "a.mbox")
    run = subprocess.Popen(words[:-1] + ["-"], cwd=case.folder, stdin=subprocess.PIPE, stdout=subprocess.DEVNULL, stderr=subprocess.DEVNULL)
    while not (case.folder / "mail/adding/set.origins").exists():
        time.sleep(0.01)
    run.terminate()
    case.check("an addition that is asked to end", run.wait(60), 128 + signal.SIGTERM)
    case.check("what it leaves", case.entries("mail"), ["1", "current", "lock"])


def readers(case):
    """A session that was opened before goes on; a generation that a reader holds stays."""
    found = messages(9)
    documents = [message.document() for message in found]
    for place in range(3):
        case.file(f"{place}.mbox", mbox(found[place * 3 : place * 3 + 3]))
    case.added("a first set", "mail", (3, 0, 3), "mbox", "0.mbox")
    session = subprocess.Popen(
        [case.suite.program, "query", "mail/1/set"], cwd=case.folder, stdin=subprocess.PIPE, stdout=subprocess.PIPE, bufsize=0
    )
    session.stdin.write(b"!zebra\n")
    shown = [session.stdout.readline() for _ in range(4)]
    case.check("a session of mg", shown, [b"1\n", b"2\n", b"3\n", b"= 3\n"])
    case.added("a second set meanwhile", "mail", (3, 0, 6), "mbox", "1.mbox")
    out = session.communicate(b".set mode text\n!zebra\n")[0]
    wanted = b"".join(b"-- %d\n%s\x02\n" % pair for pair in enumerate(documents[:3], 1)) + b"= 3\n"
    case.check("the session goes on with its set", (session.returncode, out), (0, wanted))
    with open(case.folder / "mail/1/set.table", "rb") as table:
        fcntl.flock(table, fcntl.LOCK_SH)
        case.added("a third set while the first is held", "mail", (3, 0, 9), "mbox", "2.mbox")
        case.check("the held generation stays", case.entries("mail"), ["1", "2", "3", "current", "lock"])
    case.file("3.mbox", mbox(messages(1, first=77)))
    case.added("a fourth set", "mail", (1, 0, 10), "mbox", "3.mbox")
    case.check("it goes when nobody holds it", case.entries("mail"), ["3", "4", "current", "lock"])


def limits(case):
    """What one set cannot hold is refused, and the archive stays."""
    case.file("a.mbox", mbox(messages(3)))
    case.file("b.mbox", mbox(messages(2, first=50)))
    case.added("before the limits", "mail", (3, 0, 3), "mbox", "a.mbox")
    head = case.folder / "mail/1/set.head"
    sound = head.read_bytes()
    # The head of a set that has nearly as many bytes as one may have, which a merge looks at first.
    head.write_bytes(sound[:32] + ((1 << 32) - 20).to_bytes(8, "big") + sound[40:])
    case.refused("too many bytes", 3, b"the archive would have more than 4294967295 bytes", "mail", "add", *POOL, "mbox", "b.mbox")
    case.check("too many bytes: the archive", (case.set_of("mail"), case.entries("mail")), ("1/set", ["1", "current", "lock"]))
    head.write_bytes(sound)
    # A stand-in for mg that refuses what only very large sets have.
    for status, told in [(9, "16777216 documents"), (10, "4194304 distinct words")]:
        stand_in(case, "large", f"case $1 in merge) echo 'mg: more than {told}' >&2; exit {status} ;; esac; exec '{case.suite.program}' \"$@\"")
        run = subprocess.run([case.folder / "large/mg-archive", "mail", "add", *POOL, "mbox", "b.mbox"], cwd=case.folder, capture_output=True)
        case.check(f"status {status} of a merge", (run.returncode, f"the archive would have more than {told}".encode() in run.stderr), (3, True))
        case.check(f"status {status}: the archive", (case.set_of("mail"), case.entries("mail")), ("1/set", ["1", "current", "lock"]))
    head.write_bytes(sound[:40] + b"\xff" * 8 + sound[48:])
    case.refused("a damaged set", 2, b"mg merge ended with status 6: damaged: part head", "mail", "add", *POOL, "mbox", "b.mbox")
    head.write_bytes(sound)
    case.added("after the limits", "mail", (2, 0, 5), "mbox", "b.mbox")


def refusals(case):
    case.file("a.mbox", mbox(messages(2)))
    case.file("full/other", b"")
    case.refused("a folder that is no archive", 3, b"full: the folder is not empty, and is no archive", "full", "add", "mbox", "a.mbox")
    case.check("it stays", case.entries("full"), ["other"])
    case.refused("a file as archive", 2, b"a.mbox", "a.mbox", "add", "mbox", "a.mbox")
    case.refused("no archive", 2, b"none: there is no such archive", "none", "find", "x")
    case.refused("no archive to tell of", 2, b"none: there is no such archive", "none", "status")
    case.refused("no source", 2, b"nowhere.mbox: there is no such file", "mail", "add", "mbox", "nowhere.mbox")
    case.refused("nothing was added", 3, b"mail: nothing was added to this archive", "mail", "status")
    case.added("after refusals", "mail", (2, 0, 2), "mbox", "a.mbox")
    case.refused("no document", 3, b"there is no document 3; the last one is 2", "mail", "show", "3")
    with open("/dev/full", "wb") as full_device:
        for words in [["find", "NOT", "zebra"], ["show", "1"], ["status"]]:
            run = subprocess.run([case.program, "mail", *words], cwd=case.folder, stdout=full_device, stderr=subprocess.PIPE)
            case.check(f"{words} into a full device", (run.returncode, run.stderr), (2, b"mg-archive: No space left on device\n"))
    alone = {"PATH": "/usr/bin:/bin"}
    os.symlink(ROOT / "contrib" / "mg-archive", case.folder / "alone")
    words = [case.folder / "alone", "mail", "find", "--count", "NOT zebra"]
    if not shutil.which("mg", path=alone["PATH"]):
        run = subprocess.run(words, cwd=case.folder, env=alone, capture_output=True)
        case.check("no mg", (run.returncode, b"mg is neither beside this program nor on PATH" in run.stderr), (2, True))
        run = subprocess.run(words, cwd=case.folder, env={**alone, "MG": str(case.suite.program)}, capture_output=True)
        case.check("mg by the environment", (run.returncode, run.stdout), (0, b"2\n"))
    run = subprocess.run([case.program, "mail", "find", "zebra"], cwd=case.folder, env={**os.environ, "MG": "nowhere/mg"}, capture_output=True)
    told = b"mg-archive: the environment variable MG is nowhere/mg, which is no program\n"
    case.check("the environment goes before what is beside", (run.returncode, run.stderr), (2, told))
    for words in [[], ["mail"], ["mail", "look"], ["", "status"], ["mail", "add", "mbox"], ["mail", "add", "tar", "a"], ["mail", "show"],
                  ["mail", "show", "0"], ["mail", "find", "--rows", "x", "y"], ["mail", "find", "--silt"], ["mail", "status", "now"],
                  ["mail", "find", "--count", "--json", "x"], ["mail", "add", "--text", "mbox", "a.mbox"]]:
        status, out, err = case.run(*words)
        case.check(f"words {words}", (status, out, b"usage: mg-archive ARCHIVE add" in err), (1, b"", True))
    status, out, _ = case.run("--help")
    case.check("help", (status, out.startswith(b"usage: mg-archive")), (0, True))


def full(case):
    """A full disk: the archive is as it was, and the next addition works. A small file system where one may be made."""
    found = messages(8)
    case.file("a.mbox", mbox(found[:2]))
    case.file("large.mbox", mbox(messages(400, seed=61, first=100)))
    (case.folder / "disk").mkdir()
    mounted = subprocess.run(["mount", "-t", "tmpfs", "-o", "size=200k", "tmpfs", case.folder / "disk"], capture_output=True).returncode == 0
    try:
        case.added("before the disk is full", "disk/mail", (2, 0, 2), "mbox", "a.mbox")
        if mounted:
            status, out, err = case.add("disk/mail", "mbox", "large.mbox")
            case.check("a full disk", (status, out, b"the disk is full" in err or err), (2, b"", True))
            case.check("a full disk: the archive", case.entries("disk/mail"), ["1", "current", "lock"])
            case.holds("a full disk", "disk/mail", [message.document() for message in found[:2]])
        case.file("b.mbox", mbox(found))
        case.added("after the disk was full", "disk/mail", (6, 2, 8), "mbox", "b.mbox")
    finally:
        if mounted:
            subprocess.run(["umount", case.folder / "disk"], check=True)


def in_fresh_folder(part):
    def run(suite):
        with fresh_folder(suite) as folder:
            part(Archives(suite, folder))

    return run


def too_many_words(suite):
    """Two sets of 2,200,000 words each: one alone can be held, and both in one not."""
    with fresh_folder(suite) as folder:
        case = Archives(suite, folder)
        for name in ("a", "b"):
            case.file(name, b" ".join(b"%s%07x" % (name.encode(), number) for number in range(2_200_000)))
        run = case.run("words", "add", "files", "a")
        case.check("many words", run[:2], (0, b"added 1\nknown 0\ndocuments 1\n"))
        case.refused("too many words", 3, b"more than 4194304 distinct words", "words", "add", "files", "b")
        case.check("too many words: the archive", case.entries("words"), ["1", "current", "lock"])


HERE = [additions, nameless, maildirs, folders, odd, locked, killing, children, readers, limits, refusals, full]
PARTS = [in_fresh_folder(part) for part in HERE + archive_finds.HERE]
SLOW = [too_many_words]
