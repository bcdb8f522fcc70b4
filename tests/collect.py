"""mg-collect: mailboxes as they are, folders and lists, the tables beside them, and the names of rows."""

import os
import subprocess

from collecting import Collect, row
from transcripts import fresh_folder, tools

# Lines that begin with From in every way: a From_ line of the first message that says little, quoted ones, one of text
# behind an empty line, remote ones of old networks, a folded field and one that comes twice, 8-bit fields and bodies.
MBOX = b"""From MAILER-DAEMON
From: =?ISO-8859-1?Q?J=F6rg?= <joerg@harbour.example>
Subject: the crane at
 berth\t7
X-Note: From here
Date: Thu, 1 Jan 1970 00:00:00 +0000
From: another@harbour.example

>From the start the switch was corroded.
>>From Peter, twice quoted.
>Not this one.

From Monday on the crane stands still, at 10:30 or so.

From ???@??? Mon Sep 01 12:34:56 1997
Subject: Gr\xfc\xdfe aus K\xf6ln
From : J\xf6rg

\xe4\xf6 dredger

From empty@harbour.example Tue Mar  5 10:11 PST 2002

From header@harbour.example Tue Mar  5 10:11:00 2002 +0100
subject:only a header
From bare@harbour.example Tue Mar  5 10:12:00 2002 remote from uucp

From iso@harbour.example 2003-04-05 06:07:08
From gone@harbour.example Sat Apr  5 06:07:09 2003
To: nobody

no newline at the end"""

MESSAGES = [
    b"From: =?ISO-8859-1?Q?J=F6rg?= <joerg@harbour.example>\nSubject: the crane at\n berth\t7\nX-Note: From here\n"
    b"Date: Thu, 1 Jan 1970 00:00:00 +0000\nFrom: another@harbour.example\n\nFrom the start the switch was corroded.\n"
    b">From Peter, twice quoted.\n>Not this one.\n\nFrom Monday on the crane stands still, at 10:30 or so.\n",
    b"Subject: Gr\xfc\xdfe aus K\xf6ln\nFrom : J\xf6rg\n\n\xe4\xf6 dredger\n",
    b"",
    b"subject:only a header\nFrom bare@harbour.example Tue Mar  5 10:12:00 2002 remote from uucp\n",
    b"",
    b"To: nobody\n\nno newline at the end",
]
# The beginning of each message in the mbox, and Message-ID, date, sender and subject.
FIELDS = [
    (b"From: =?ISO", b"", b"1970-01-01T00:00:00+00:00", "Jörg <joerg@harbour.example>".encode(), b"the crane at berth 7"),
    (b"Subject: Gr", b"", b"", b"J\xf6rg", b"Gr\xfc\xdfe aus K\xf6ln"), (b"\nFrom header", b"", b"", b"", b""),
    (b"subject:only", b"", b"", b"", b"only a header"), (b"From gone", b"", b"", b"", b""), (b"To: nobody", b"", b"", b"", b""),
]


def table(name, mbox, first=1):
    """The rows of the messages, each where it stands in the mbox."""
    rows = []
    for number, ((beginning, *fields), message) in enumerate(zip(FIELDS, MESSAGES), first):
        offset = mbox.index(beginning.replace(b"\n", b"\r\n") if b"\r" in mbox else beginning)
        # In the mbox two lines have one sign more, before From.
        length = len(message.replace(b"\n", b"\r\n") if b"\r" in mbox else message) + 2 * (b"twice quoted" in message)
        rows.append(row(number, name, offset, length, *fields))
    return b"".join(rows)


def mailboxes(case):
    """Messages as they are, with --raw."""
    returned = MBOX.replace(b"\n", b"\r\n")
    for name, content in [("a.mbox", MBOX), ("b.mbox", returned), ("empty", b""), ("blank", b"\n\r\n\n")]:
        case.file(name, content)
    case.made("an mbox", MESSAGES, table(b"a.mbox", MBOX), b"documents 6\n", "mbox", "--raw", "new", "a.mbox")
    case.made(
        "two mboxes", MESSAGES + [message.replace(b"\n", b"\r\n") for message in MESSAGES],
        table(b"a.mbox", MBOX) + table(b"b.mbox", returned, 7), b"documents 12\n",
        "--raw", "mbox", "new", "a.mbox", "empty", "b.mbox", "blank",
    )
    case.made("an empty mbox", [], b"", b"documents 0\n", "mbox", "new", "empty")
    case.file("ended", b"From a\nSubject: s\n\nbody\n\n\n")
    rows = row(1, b"ended", 7, 18, b"", b"", b"", b"s")
    case.made("a body that ends in empty lines", [b"Subject: s\n\nbody\n\n"], rows, b"documents 1\n", "mbox", "new", "ended", "--raw")
    case.file("odd name\\n %s", b"From a\n\nx\n")
    rows = row(1, b"odd name\\n %s", 7, 3)
    case.made("an odd name", [b"\nx\n"], rows, b"documents 1\n", "mbox", "new", "odd name\\n %s", "--raw")
    case.file("nulls", b"From a\n\nx\x00y\n")
    case.made("a null byte", [b"\nx\x00y\n"], row(1, b"nulls", 7, 5), b"documents 1\n", "mbox", "new", "nulls", "--raw")
    case.file("text", b"\nHello,\n")
    case.refused("no mbox", 3, b"mg-collect: text:2: no mbox: a line before the first From line\n", "mbox", "new", "a.mbox", "text")
    closes(case)


def closes(case):
    """A control-B in a message that is to stay as it is."""
    mbox = b"From a\nSubject: s\n\na\x02b\x02\n\nFrom b@c Tue Mar  5 10:11:00 2002\n\nnext\n"
    case.file("closed", mbox)
    second = row(1, b"closed", mbox.index(b"\nnext"), 6)
    told = b"mg-collect: left out closed: a control-B at 4:2\n"
    choice = b"mg-collect: 1 documents were left out; --skip says that this is meant, --replace BYTE takes such bytes\n"
    case.made("a control-B in an mbox", [b"\nnext\n"], second, b"documents 1\nskipped 1\n", "mbox", "--raw", "new", "closed", status=5, told=told + choice)
    case.made("which is skipped", [b"\nnext\n"], second, b"documents 1\nskipped 1\n", "mbox", "--raw", "--skip", "new", "closed", told=told)
    both = row(1, b"closed", 7, 17, b"", b"", b"", b"s") + row(2, b"closed", mbox.index(b"\nnext"), 6)
    for byte in ["?", "\\", "-", " "]:
        case.made(
            f"replaced by {byte!r}", [b"Subject: s\n\na%sb%s\n" % (byte.encode(), byte.encode()), b"\nnext\n"], both,
            b"documents 2\nreplaced 2\n", "--raw", f"-r{byte}", "mbox", "new", "closed",
        )


def blocks(case):
    """Messages whose lines stand across the blocks in which an mbox is read: every place of a From_ line, and a large one."""
    line = b"From a@b.example Thu Jan  1 00:00:00 1970\n"
    for shift in range(-50, 3):
        first = b"x" * ((1 << 20) + shift - len(line) - 2) + b"\n"
        case.file("m", line + b"\n" + first + b"\n" + line + b"\nnext\n")
        rows = row(1, b"m", len(line), len(first) + 1) + row(2, b"m", 2 * len(line) + len(first) + 2, 6)
        case.made(f"a From line {shift} bytes from a block", [b"\n" + first, b"\nnext\n"], rows, b"documents 2\n", "mbox", "--raw", "new", "m")
    large = b"\n" + b"From the north a line of text\n" * 100_000
    case.file("m", line + large + b"\n" + line + b"\n")
    rows = row(1, b"m", len(line), len(large)) + row(2, b"m", 2 * len(line) + len(large) + 1, 0)
    case.made("a message of three megabytes", [large, b""], rows, b"documents 2\n", "mbox", "--raw", "new", "m")


def folders(case):
    contents = {"notes/B": b"a cat\n", "notes/a b": b"\xff\xfe dog", "notes/empty": b"", "notes/sub/-x": b"deep\r\n", "notes/sub.d": b"."}
    for name, content in contents.items():
        case.file(name, content)
    ordered = sorted(contents, key=str.encode)
    rows = b"".join(row(i, name.encode(), 0, len(contents[name])) for i, name in enumerate(ordered, 1))
    documents = [contents[name] for name in ordered]
    case.made("a folder", documents, rows, b"documents 5\n", "folder", "new", "notes")
    case.made("a folder with a slash", documents, rows, b"documents 5\n", "folder", "new", "notes/")
    case.made("files", documents, rows, b"documents 5\n", "files", "new", *ordered)
    names = "\n".join(ordered).encode()
    for name, given in [("a list", names), ("a list with a newline at its end", names + b"\n")]:
        case.made(name, documents, rows, b"documents 5\n", "files", "new", given=given)
    case.made("an empty list", [], b"", b"documents 0\n", "files", "new")
    for _ in range(2):
        case.check("a folder that has the collection", case.run("folder", "notes/all", "notes"), (0, b"documents 5\n", b""))
    os.remove(case.path("notes/all"))
    os.remove(case.path("notes/all.table"))
    case.file("-d/a", b"x")
    case.made("a folder that looks like an option", [b"x"], row(1, b"./-d/a", 0, 1), b"documents 1\n", "folder", "new", "--", "-d")
    case.refused("a list with an empty line", 3, b"mg-collect: an empty name\n", "files", "new", given=b"notes/B\n\nnotes/B\n")
    for words, name in [(["folder", "new", "none"], b"folder"), (["files", "new", "notes/B", "none"], b"file"), (["mbox", "new", "none"], b"file")]:
        case.refused(f"no {name}", 2, b"mg-collect: none: there is no such %s\n" % name, *words)
    case.refused("a folder in a list", 2, b"mg-collect: notes: it is a folder\n", "files", "new", given=b"notes/B\nnotes\n")
    case.refused("a folder as mbox", 2, b"mg-collect: notes: it is a folder\n", "mbox", "new", "notes")
    told = b"mg-collect: notes: it is a folder\n"
    case.check("a folder as collection", case.run("files", "notes", "notes/B"), (2, b"", told))
    told = b"mg-collect: notes/B: it would be written over by the collection or its table\n"
    case.check("a source as collection", case.run("files", "notes/B", "notes/B"), (3, b"", told))
    case.check("which stays", case.content("notes/B"), contents["notes/B"])


def named(case):
    case.file("text.table", b"1\tnotes/a\n2\tm.mbox:7\tJ\xf6rg\t\tcr\x00ane\n3\t\n")
    given = b"2\n3 3456\n= 2\n-- 1\n2\n3 3456\n= 9\n-- 2\n\xff\x00\x02\n= 1\n-- 2 77\n\x02\n= 1\n? syntax at 2\n\n? bad command\n"
    wanted = (
        b"2\tm.mbox:7\tJ\xf6rg\t\tcr\x00ane\n3 3456\t\n= 2\n-- 1\tnotes/a\n2\n3 3456\n= 9\n-- 2\n\xff\x00\x02\n= 1\n"
        b"-- 2 77\tm.mbox:7\tJ\xf6rg\t\tcr\x00ane\n\x02\n= 1\n? syntax at 2\n\n? bad command\n"
    )
    case.check("names", case.run("names", "text.table", given=given), (0, wanted, b""))
    case.check("names of a last line without its end", case.run("names", "text.table", given=b"= 0\n1"), (0, b"= 0\n1\tnotes/a", b""))
    unnamed = (4, b"1\tnotes/a\n4\n5 5\n= 3\n", b"mg-collect: text.table: it has no document 4\n")
    case.check("rows of another collection", case.run("names", "text.table", given=b"1\n4\n5 5\n= 3\n"), unnamed)
    case.check("no table", case.run("names", "none"), (2, b"", b"mg-collect: none: it cannot be read\n"))
    large = b"-- 1\n" + b"1\n2\n" * 300_000 + b"no \x02 end\n\x02\n1\n"
    wanted = large.replace(b"-- 1\n", b"-- 1\tnotes/a\n", 1)[:-2] + b"1\tnotes/a\n"
    case.check("a shown document of more than a megabyte", case.run("names", "text.table", given=large), (0, wanted, b""))
    merged(case)


def merged(case):
    """The tables of merged sets, and tables whose numbers are not 1, 2, 3 and so on."""
    case.file("a.table", b"1\tone\n2\ttwo\n")
    case.file("b.table", b"1\tthree\n")
    case.file("none.table", b"")
    given = b"1\n2\n3\n= 3\n"
    wanted = b"1\tone\n2\ttwo\n3\tthree\n= 3\n"
    case.check("names of a merge", case.run("names", "a.table", "none.table", "b.table", given=given), (0, wanted, b""))
    case.check("the other way", case.run("names", "b.table", "a.table", given=given), (0, b"1\tthree\n2\tone\n3\ttwo\n= 3\n", b""))
    told = b"mg-collect: a.table, b.table: they have no document 4\n"
    case.check("beyond both", case.run("names", "a.table", "b.table", given=b"4\n"), (4, b"4\n", told))
    for name, content, line in [
        ("starts later", b"2\tx\n", 1), ("a gap", b"1\tx\n3\ty\n", 2), ("twice", b"1\tx\n1\ty\n", 2), ("none", b"x\n", 1), ("empty", b"1\tx\n\n", 2),
        ("zeros", b"01\tx\n", 1),
    ]:
        case.file("odd.table", content)
        told = b"mg-collect: odd.table:%d: no row %d of a table\n" % (line, line)
        case.check(f"a table that has numbers otherwise: {name}", case.run("names", "a.table", "odd.table", given=b"1\n"), (3, b"", told))


def usage(case):
    last = b"options: --raw, --skip, --replace BYTE (-r BYTE), --filter COMMAND, --text, --help\n"
    for words in [[], ["mbox"], ["mbox", "new"], ["folder", "new"], ["names"], ["index", "new", "a"], ["-r", "", "files", "new"],
                  ["-r", "ab", "files", "new"], ["-r", "\x02", "files", "new"], ["-x", "files", "new"], ["names", "a", "--raw"],
                  ["mbox", "new", "a", "--text"], ["maildir", "new", "a", "--filter", "cat"], ["files", ""], ["files", "new", "--ra"]]:
        status, out, err = case.run(*words)
        case.check(f"words {words}", (status, out, err.endswith(last)), (1, b"", True))
    status, out, err = case.run("--help")
    case.check("help", (status, out.endswith(last), err), (0, True, b""))


def every_part(suite):
    for part in [mailboxes, blocks, folders, named, usage]:
        with fresh_folder(suite) as folder:
            part(Collect(suite, folder))


def asked(suite):
    """From an mbox to an answer with names."""
    with fresh_folder(suite) as folder:
        case = Collect(suite, folder)
        case.file("a.mbox", MBOX)
        case.run("--raw", "mbox", "mail", "a.mbox")
        program = tools(suite) / "mg"
        subprocess.run([program, "build", "mail", "mail"], cwd=folder, stdout=subprocess.DEVNULL)
        lines = b"crane & stands\ndredger\n"
        out = subprocess.run([program, "query", "mail"], cwd=folder, input=lines, stdout=subprocess.PIPE).stdout
        rows = table(b"a.mbox", MBOX).splitlines(keepends=True)
        case.check("an answer with names", case.run("names", "mail.table", given=out)[1], rows[0] + b"= 1\n" + rows[1] + b"= 1\n")


PARTS = [every_part, asked]
