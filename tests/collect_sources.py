"""mg-collect: pipes and compressed sources, Maildirs with subfolders, MH folders, and what a disk or a source does that fails."""

import bz2
import contextlib
import gzip
import lzma
import os
import pty
import shutil
import signal
import subprocess
import time

from collect import FIELDS, MBOX, MESSAGES, table
from collecting import SCRIPT, Collect, row
from transcripts import fresh_folder

# The signals by which a run is told to end.
ENDING = [signal.SIGTERM, signal.SIGINT, signal.SIGHUP]
COMPRESSED = [("gz", gzip.compress), ("bz2", bz2.compress), ("xz", lzma.compress)]


def pipes(case):
    """An mbox through every kind of pipe, compressed or not, gives the same documents."""
    case.file("a.mbox", MBOX)
    for name in [b"-", b"/dev/stdin", b"/dev/fd/0"]:
        case.made(f"an mbox from {name}", MESSAGES, table(name, MBOX), b"documents 6\n", "--raw", "mbox", "new", name, given=MBOX)
    case.made("an empty pipe", [], b"", b"documents 0\n", "mbox", "new", "-")
    run = subprocess.run(["bash", "-c", f"'{SCRIPT}' --raw mbox new <(sleep 0.2; printf F; sleep 0.2; tail -c +2 a.mbox)"], cwd=case.folder, capture_output=True)
    case.check("a pipe of bash, slowly", (run.returncode, run.stdout, run.stderr), (0, b"documents 6\n", b""))
    case.check("its documents", case.content("new"), b"".join(message + b"\x02" for message in MESSAGES))
    for name in ["new", "new.table"]:
        os.remove(case.path(name))
    for ending, compress in COMPRESSED:
        name = b"b." + ending.encode()
        case.file(name, compress(MBOX[:300]) + compress(MBOX[300:]))
        case.made(f"an mbox in two parts of {ending}", MESSAGES, table(name, MBOX), b"documents 6\n", "--raw", "mbox", "new", name)
        case.made(f"{ending} from a pipe", MESSAGES, table(b"-", MBOX), b"documents 6\n", "--raw", "mbox", "new", "-", given=compress(MBOX))
        case.file("cut", compress(MBOX)[:-9])
        case.refused(f"a damaged mbox of {ending}", 2, b"mg-collect: cut: it is a damaged compressed file\n", "mbox", "new", "cut")
        case.file("note." + ending, compress(b"a note\n"))
        case.file("plain." + ending, b"not compressed\n")
        names = [b"note." + ending.encode(), b"plain." + ending.encode()]
        rows = row(1, names[0], 0, 7) + row(2, names[1], 0, 15)
        case.made(f"files of {ending}", [b"a note\n", b"not compressed\n"], rows, b"documents 2\n", "files", "new", *names)
    data = gzip.compress(b"a note\n", mtime=0)
    case.made("a file from standard input", [b"a note\n"], row(1, b"-", 0, 7), b"documents 1\n", "files", "new", "-", given=data)
    case.file("text.gz", b"\x1f\x8b\x08 of no use")
    told = b"mg-collect: left out text.gz: it is a damaged compressed file\n"
    case.made("a damaged file", [], b"", b"documents 0\nskipped 1\n", "--skip", "files", "new", "text.gz", told=told)


def maildirs(case):
    """The order of Maildirs, subfolders, and links; compressed messages."""
    returned = MESSAGES[1].replace(b"\n", b"\r\n")
    mails = {
        "cur/1700000003.M1.host:2,S": MESSAGES[0], "new/1700000001.M7.host": returned, "cur/1700000002.M1.host:2,RS": gzip.compress(b"To: x\n"),
        ".Sent/cur/1600000000.M1.host:2,S": b"Subject: sent\n", ".Sent.2019/new/1500000000.M1.host": b"Subject: 2019\n", "Other/cur/1:2,": b"Subject: other\n",
    }
    for name, content in mails.items():
        case.file("Mail/" + name, content)
    for name in ["tmp/1700000000.M1.host", "7", "dovecot-uidlist", "cur/.hidden", ".Sent/maildirfolder"]:
        case.file("Mail/" + name, b"no message")
    for folder in [".Sent/new", ".Sent.2019/cur", "Other/new", ".Empty"]:
        os.makedirs(case.path("Mail/" + folder), exist_ok=True)
    order = [
        ("new/1700000001.M7.host", returned, FIELDS[1][1:]), ("cur/1700000002.M1.host:2,RS", b"To: x\n", []), ("cur/1700000003.M1.host:2,S", MESSAGES[0], FIELDS[0][1:]),
        (".Sent/cur/1600000000.M1.host:2,S", b"Subject: sent\n", [b"", b"", b"", b"sent"]),
        (".Sent.2019/new/1500000000.M1.host", b"Subject: 2019\n", [b"", b"", b"", b"2019"]), ("Other/cur/1:2,", b"Subject: other\n", [b"", b"", b"", b"other"]),
    ]
    rows = b"".join(row(n, b"Mail/" + name.encode(), 0, len(content), *fields) for n, (name, content, fields) in enumerate(order, 1))
    case.made("a Maildir", [content for _, content, _ in order], rows, b"documents 6\n", "--raw", "maildir", "new", "Mail/")
    told = b"mg-collect: Mail/cur: no Maildir: it has no folders cur and new, and no numbered files as in an MH folder\n"
    case.refused("no Maildir", 3, told, "maildir", "new", "Mail/cur")
    case.refused("no folder", 2, b"mg-collect: none: there is no such folder\n", "maildir", "new", "none")
    os.symlink("1", case.path("Mail/Other/cur/loop"))
    os.symlink("loop2", case.path("Mail/Other/cur/loop2"))
    os.symlink("1:2,", case.path("Mail/Other/cur/found"))
    told = b"mg-collect: left out Mail/Other/cur/loop: there is no such file\nmg-collect: left out Mail/Other/cur/loop2: a loop of symbolic links\n"
    rows = row(1, b"Mail/Other/cur/1:2,", 0, 15, b"", b"", b"", b"other") + row(2, b"Mail/Other/cur/found", 0, 15, b"", b"", b"", b"other")
    documents = [b"Subject: other\n"] * 2
    case.made("links in a Maildir", documents, rows, b"documents 2\nskipped 2\n", "--raw", "--skip", "maildir", "new", "Mail/Other", told=told)


def mh_folders(case):
    """MH: messages in the order of their numbers, folders below, and nothing else."""
    for name in ["10", "2", "1", ",3", ".mh_sequences", "0", "04", "x5", "inner/7", "inner/deeper/8", "other/note"]:
        case.file("mh/" + name, f"Subject: {name}\n\n".encode())
    order = ["1", "2", "10", "inner/7", "inner/deeper/8"]
    documents = [f"Subject: {name}\n\n".encode() for name in order]
    rows = b"".join(row(n, f"mh/{name}".encode(), 0, len(document), b"", b"", b"", name.encode()) for n, (name, document) in enumerate(zip(order, documents), 1))
    case.made("an MH folder", documents, rows, b"documents 5\n", "maildir", "new", "mh")
    case.file("mh/box/cur/1", b"Subject: box\n\n")
    os.makedirs(case.path("mh/box/new"))
    status, out, _ = case.run("maildir", "new", "mh")
    case.check("a Maildir in an MH folder", (status, out), (0, b"documents 6\n"))
    os.makedirs(case.path("empty"))
    case.file("empty/.mh_sequences")
    case.check("an empty MH folder", case.run("maildir", "new", "empty"), (0, b"documents 0\n", b""))


def limited(case):
    """Files that take no more than a few bytes, as on a disk that is nearly full: the old collection stays."""
    case.file("a.mbox", MBOX)
    case.file("Mail/cur/1", MESSAGES[0])
    case.file("Mail/new/2", MESSAGES[1])
    case.file("new", b"old")
    before = set(os.listdir(case.folder))
    for words in [["mbox", "new", "a.mbox"], ["maildir", "new", "Mail"], ["folder", "new", "Mail"]]:
        for most in [0, 20, 100]:
            got = case.run(*words, most=most)
            case.check(f"{words[0]} into files of at most {most} bytes", got, (2, b"", b"mg-collect: new: it cannot be written: File too large\n"))
            case.check(f"{words[0]} into files of {most} bytes: the old one", case.content("new"), b"old")
            case.check(f"{words[0]} into files of {most} bytes leaves none", set(os.listdir(case.folder)), before)


@contextlib.contextmanager
def small_disk(case, name, size):
    """A disk of so many bytes, mounted here: needs the rights of root."""
    os.makedirs(case.path(name))
    subprocess.run(["mount", "-t", "tmpfs", "-o", f"size={size}", "tmpfs", case.path(name)], check=True)
    try:
        yield
    finally:
        subprocess.run(["umount", case.path(name)], check=True)


def may_mount(case):
    """Whether a disk can be mounted here, which a container may not be given."""
    try:
        with small_disk(case, "trial", 65_536):
            return True
    except subprocess.CalledProcessError:
        return False


def full_disk(case):
    """A disk that is full is told as such, whatever is collected, and the source is not blamed."""
    if os.geteuid() != 0 or not may_mount(case):
        print("not tried: a full disk (it could not be mounted here)")
        return
    case.file("large", b"From a\n\n" + b"a line of text\n" * 40_000)
    case.file("tree/large", b"a line of text\n" * 40_000)
    with small_disk(case, "disk", 262_144):
        case.file("disk/new", b"old")
        for words in [["mbox", "disk/new", "large"], ["folder", "disk/new", "tree"], ["files", "disk/new", "tree/large"]]:
            case.check(f"{words[0]} to a full disk", case.run(*words), (2, b"", b"mg-collect: disk/new: it cannot be written: the disk is full\n"))
            case.check("what was there stays", (case.content("disk/new"), os.listdir(case.path("disk"))), (b"old", [b"new"]))
        names = "".join(f"disk/file{n}\n" for n in range(3)).encode()
        for n in range(3):
            case.file(f"disk/file{n}", b"x" * 70_000)
        case.check("sources on it", case.run("files", "disk/all", given=names)[0], 2)
        case.check("from it to another", case.run("files", "all", given=names), (0, b"documents 3\n", b""))


def rights(case):
    """What another user may not read: a file that was named is refused, one below a folder is told."""
    if os.geteuid() != 0 or not shutil.which("setpriv"):
        print("not tried: files that cannot be read (root may read all)")
        return
    as_nobody = ["setpriv", "--reuid=65534", "--regid=65534", "--clear-groups"]
    for folder in [os.path.dirname(case.folder), case.folder]:
        os.chmod(folder, 0o755)
    os.makedirs(case.path("out"))
    os.chmod(case.path("out"), 0o777)
    case.file("tree/a", b"one\n")
    case.file("tree/b", b"two\n")
    case.file("tree/closed/c", b"three\n")
    os.chmod(case.path("tree/b"), 0)
    os.chmod(case.path("tree/closed"), 0)
    told = b"mg-collect: left out tree/b: it cannot be read\nmg-collect: left out tree/closed/: it cannot be read\n"
    case.check("a folder with what cannot be read", case.run("--skip", "folder", "out/new", "tree", command=as_nobody), (0, b"documents 1\nskipped 2\n", told))
    case.check("what can be read", case.content("out/new"), b"one\n\x02")
    for words in [["files", "out/new", "tree/a", "tree/b"], ["mbox", "out/new", "tree/b"]]:
        case.check(f"{words[0]}: a file that cannot be read", case.run(*words, command=as_nobody), (2, b"", b"mg-collect: tree/b: it cannot be read\n"))
    case.check("a folder that cannot be read", case.run("folder", "out/new", "tree/closed", command=as_nobody), (2, b"", b"mg-collect: tree/closed: it cannot be read\n"))
    told = b"mg-collect: tree/new: it cannot be written: Permission denied\n"
    case.check("a folder that cannot be written", case.run("folder", "tree/new", "tree", command=as_nobody), (2, b"", told))
    case.check("the old collection", case.content("out/new"), b"one\n\x02")


def heard():
    """What a child does first: signals that the suite's own caller ignores, as nohup does, end it."""
    for number in ENDING:
        signal.signal(number, signal.SIG_DFL)


def ended(case):
    """A run that is told to end leaves nothing."""
    reader, writer = os.pipe()
    pipes = {"stdin": reader, "stdout": subprocess.PIPE, "stderr": subprocess.PIPE}
    for number in ENDING:
        case.file("new", b"old")
        before = set(os.listdir(case.folder))
        process = subprocess.Popen([SCRIPT, "mbox", "new", "-"], cwd=case.folder, preexec_fn=heard, **pipes)
        until = time.monotonic() + 60
        while set(os.listdir(case.folder)) == before and time.monotonic() < until:
            time.sleep(0.01)
        process.send_signal(number)
        out, err = process.communicate(timeout=60)
        case.check(f"signal {number}", (process.returncode, out, err, set(os.listdir(case.folder))), (128 + number, b"", b"", before))
        case.check(f"signal {number}: the old collection", case.content("new"), b"old")
    os.close(reader)
    os.close(writer)


def progress(case):
    """In a terminal a line tells how far it is, and is gone in the end; elsewhere there is none."""
    case.file("many", b"From a\n\nx\n\n" + b"From b@c.example Thu Jan  1 00:00:00 1970\n\ny\n\n" * 40_000)
    process, terminal = pty.fork()
    if process == 0:
        os.chdir(case.folder)
        os.execv(SCRIPT, [str(SCRIPT), "mbox", "new", "many"])
    text = b""
    while True:
        try:
            block = os.read(terminal, 4096)
        except OSError:
            break
        text += block
    status = os.waitpid(process, 0)[1]
    os.close(terminal)
    case.check("the status in a terminal", status, 0)
    steps = text.split(b"\r")
    case.check("progress is told", len([step for step in steps if step.startswith(b"documents ") and b", " in step]) >= 1, True)
    case.check("what stays", screen(text), "documents 40001")


def screen(text):
    """The lines that a terminal shows after these bytes, without empty ones."""
    lines, place = [[]], 0
    for sign in text.decode():
        if sign == "\n":
            lines.append([])
        elif sign == "\r":
            place = 0
        elif sign == "\b":
            place -= 1
        else:
            lines[-1][place : place + 1] = sign
            place += 1
    return "\n".join(filter(None, ("".join(line).rstrip() for line in lines)))


def every_part(suite):
    for part in [pipes, maildirs, mh_folders, limited, full_disk, rights, ended, progress]:
        with fresh_folder(suite) as folder:
            part(Collect(suite, folder))


PARTS = [every_part]
