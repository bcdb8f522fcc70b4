"""mg-collect: filters, text, files that are odd, and what mg and its programs made in a collected folder."""

import gzip
import os
import subprocess
import sys

from collecting import Collect, row
from transcripts import ROOT, fresh_folder, tools

CHOICE = b"mg-collect: %d documents were left out; --skip says that this is meant, --replace BYTE takes such bytes\n"


def odd_files(case):
    """Each odd file is told by its name and left out; the others are taken."""
    contents = {"t/a": b"one\n", "t/b": b"x\n\x02", "t/c": b"two\n", "t/d": b"\x89PNG\n\n12\x00\x02", "t/e\tf": b"", "t/g\nh": b"", "t/z": b"last"}
    for name, content in contents.items():
        case.file(name, content)
    told = (
        b"mg-collect: left out t/b: a control-B at 2:1\nmg-collect: left out t/d: a null byte at 3:3\n"
        b"mg-collect: left out t/e\\tf: a name with a tab or a newline\nmg-collect: left out t/g\\nh: a name with a tab or a newline\n"
    )
    documents = [b"one\n", b"two\n", b"last"]
    rows = row(1, b"t/a", 0, 4) + row(2, b"t/c", 0, 4) + row(3, b"t/z", 0, 4)
    printed = b"documents 3\nskipped 4\n"
    case.made("odd files", documents, rows, printed, "folder", "new", "t", status=5, told=told + CHOICE % 4)
    case.made("odd files that are skipped", documents, rows, printed, "folder", "--skip", "new", "t", told=told)
    names = told.splitlines(keepends=True)[2:]
    documents = [b"one\n", b"x\n?", b"two\n", b"\x89PNG\n\n12??", b"last"]
    rows = row(1, b"t/a", 0, 4) + row(2, b"t/b", 0, 3) + row(3, b"t/c", 0, 4) + row(4, b"t/d", 0, 10) + row(5, b"t/z", 0, 4)
    printed = b"documents 5\nreplaced 3\nskipped 2\n"
    case.made("odd files that are taken", documents, rows, printed, "folder", "--replace", "?", "new", "t", status=5, told=b"".join(names) + CHOICE % 2)
    case.made("and skipped", documents, rows, printed, "folder", "--replace", "?", "--skip", "new", "t", told=b"".join(names))
    for name, shown in [(b"t/e\tf", b"t/e\\tf"), (b"t/g\nh", b"t/g\\nh")]:
        case.refused(f"the name {name}", 3, b"mg-collect: a name with a tab or a newline: %s\n" % shown, "files", "new", "t/a", name)
    given = b"t/a\nnone\nt\nt/z\n"
    told = b"mg-collect: left out none: there is no such file\nmg-collect: left out t: it is a folder\n"
    rows = row(1, b"t/a", 0, 4) + row(2, b"t/z", 0, 4)
    case.made("a list of which some are gone", [b"one\n", b"last"], rows, b"documents 2\nskipped 2\n", "--skip", "files", "new", given=given, told=told)
    case.refused("without --skip", 2, b"mg-collect: none: there is no such file\n", "files", "new", given=given)


def links(case):
    """Symbolic links below a folder are not followed, loops among them, and are counted."""
    case.file("t/a", b"one\n")
    for name, target in [("t/loop", "loop"), ("t/up", ".."), ("t/b", "a"), ("loop", "loop")]:
        os.symlink(target, case.path(name))
    os.mkfifo(case.path("t/pipe"))
    rows = row(1, b"t/a", 0, 4)
    told = b"mg-collect: passed by 4 symbolic links and devices\n"
    case.made("links in a folder", [b"one\n"], rows, b"documents 1\n", "folder", "new", "t", told=told)
    for kind in ["files", "folder", "maildir", "mbox"]:
        case.refused(f"a loop of links: {kind}", 2, b"mg-collect: loop: a loop of symbolic links\n", kind, "new", "loop")
    case.made("a link that is named", [b"one\n"], row(1, b"t/b", 0, 4), b"documents 1\n", "files", "new", "t/b")
    os.symlink("t", case.path("way"))
    case.made("a folder by a link", [b"one\n"], row(1, b"way/a", 0, 4), b"documents 1\n", "folder", "new", "way", told=told)
    case.file("kept", b"old")
    os.symlink("kept", case.path("new"))
    case.check("a collection behind a link", case.run("files", "new", "t/a")[:2], (0, b"documents 1\n"))
    case.check("it is written where the link leads", (os.readlink(case.path("new")), case.content("kept")), (b"kept", b"one\n\x02"))
    case.check("a device as collection", case.run("files", "/dev/null", "t/a"), (2, b"", b"mg-collect: /dev/null: it is no plain file\n"))
    deep(case)


def deep(case):
    """Folders in one another, more than Python's own walk takes."""
    path = case.path("t") + b"/d" * 1500
    subprocess.run(["mkdir", "-p", path], check=True)
    with open(path + b"/x", "wb") as file:
        file.write(b"deep")
    status, out, _ = case.run("folder", "deep", "t")
    case.check("a folder of 1,500 folders in one another", (status, out, case.content("deep")), (0, b"documents 2\n", b"one\n\x02deep\x02"))
    subprocess.run(["rm", "-rf", case.path("t")], check=True)


def filters(case):
    """A command before each document."""
    for name, content in [("t/a", b"one\n"), ("t/b.gz", b"two\n"), ("t/c", b"3")]:
        case.file(name, content)
    rows = row(1, b"t/a", 0, 4) + row(2, b"t/b.gz", 0, 4) + row(3, b"t/c", 0, 1)
    case.made("a filter", [b"ONE\n", b"TWO\n", b"3"], rows, b"documents 3\n", "--filter", "tr a-z A-Z", "folder", "new", "t")
    case.made("a filter with a name", [b"t/a", b"t/b.gz", b"t/c"], rows, b"documents 3\n", "folder", "new", "t", "--filter", 'printf %s "$MG_FILE"')
    case.made("a filter that reads nothing", [b"", b"", b""], rows, b"documents 3\n", "--filter", "true", "folder", "new", "t")
    command = 'if [ "$MG_FILE" = t/c ]; then echo no good >&2; exit 7; fi; cat'
    told = b"mg-collect: left out t/c: the filter ended with status 7: no good\n"
    rows = row(1, b"t/a", 0, 4) + row(2, b"t/b.gz", 0, 4)
    documents = [b"one\n", b"two\n"]
    case.made("a filter that fails", documents, rows, b"documents 2\nskipped 1\n", "--filter", command, "folder", "new", "t", status=5, told=told + CHOICE % 1)
    case.made("and is skipped", documents, rows, b"documents 2\nskipped 1\n", "--skip", "--filter", command, "folder", "new", "t", told=told)
    command = 'if [ "$MG_FILE" = t/c ]; then kill -9 $$; fi; cat'
    told = b"mg-collect: left out t/c: the filter ended with signal 9\n"
    case.made("a filter that is killed", documents, rows, b"documents 2\nskipped 1\n", "--skip", "--filter", command, "folder", "new", "t", told=told)
    told = b"mg-collect: left out t/a: a control-B at 1:2\n"
    case.made("a filter that writes control-B", [b"3"], row(1, b"t/c", 0, 1), b"documents 1\nskipped 1\n", "--skip", "--filter", "tr n '\\002'", "files", "new", "t/a", "t/c", told=told)
    large = b"0123456789\n" * 100_000
    case.file("large", large)
    case.made("a filter over a large file", [large], row(1, b"large", 0, len(large)), b"documents 1\n", "--filter", "cat", "files", "new", "large")


def compressed(case):
    """zcat -f over files that are compressed and files that are not, whatever their names are."""
    case.file("t/a", gzip.compress(b"one\n"))
    case.file("t/b", b"two\n")
    documents = [b"one\n", b"two\n"]
    rows = row(1, b"t/a", 0, len(case.content("t/a"))) + row(2, b"t/b", 0, 4)
    case.made("zcat -f", documents, rows, b"documents 2\n", "--filter", "zcat -f", "folder", "new", "t")
    case.file("t/a.gz", gzip.compress(b"a\x00"))
    raw = case.content("t/a.gz")
    status, out, _ = case.run("--raw", "--replace", "_", "files", "new", "t/a.gz")
    replaced = raw.replace(b"\x00", b"_").replace(b"\x02", b"_")
    case.check("a compressed file as it is", (status, case.content("new")), (0, replaced + b"\x02"))


def text(case):
    """--text: HTML as its text, UTF-16 as UTF-8, signs in their ASCII forms."""
    page = b"<!DOCTYPE html>\n<html><head><title>A page</title><script>no()</script></head><body><p>one &ldquo;two&rdquo;<p>th<i>ree</i></body></html>"
    contents = {
        "t/a.html": (page, "A page\none \"two\"\nthree\n"), "t/b": (page, "A page\none \"two\"\nthree\n"),
        "t/c.htm": (b"<p>bit of K\xf6ln<meta charset=latin1>", "bit of Köln\n"), "t/d": ("\ufeffKöln’s\r\n".encode("utf-16-le"), "Köln's\r\n"),
        "t/e": ("\ufeffKöln".encode("utf-16-be"), "Köln"), "t/f": ("\ufeffKöln".encode(), "Köln"), "t/g": ("don’t – x\u00a0y".encode(), "don't - x y"),
        "t/h": (b"a < b & <c>", "a < b & <c>"), "t/i.HTML": ("\ufeff<p>Köln".encode("utf-16-le"), "Köln\n"),
    }
    for name, (content, _) in contents.items():
        case.file(name, content)
    case.file("t/k", b"K\xf6ln \x80")
    documents = [wanted.encode() for _, wanted in contents.values()] + [b"K\xf6ln \x80"]
    rows = b"".join(row(n, name.encode(), 0, len(content)) for n, (name, (content, _)) in enumerate(contents.items(), 1)) + row(10, b"t/k", 0, 6)
    case.made("text", documents, rows, b"documents 10\n", "--text", "folder", "new", "t")
    told = b"".join(b"mg-collect: left out t/%s: a null byte at 1:%d\n" % (name, place) for name, place in [(b"d", 4), (b"e", 3), (b"i.HTML", 4)])
    status, out, err = case.run("--skip", "folder", "new", "t")
    case.check("and without", (status, out, err), (0, b"documents 7\nskipped 3\n", told))
    for name in ["new", "new.table"]:
        os.remove(case.path(name))
    case.file("p", b"<p>x")
    case.made("HTML of a filter", [b"x\n"], row(1, b"p", 0, 4), b"documents 1\n", "--text", "--filter", "sed 's/^/<html>/'", "files", "new", "p")


def made_files(case):
    """Sets, tables with their collections, and work folders are left out; files with such names that are others are not."""
    case.file("t/a", b"one\n")
    case.check("a collection", case.run("folder", "t/all", "t")[0], 0)
    run = subprocess.run([tools(case.suite) / "mg", "build", "t/all", "t/set"], cwd=case.folder, stdout=subprocess.PIPE)
    case.check("a set", run.returncode, 0)
    case.file("t/.mg-collect.old/collection", b"half")
    case.file("t/sub/gone.table", b"1\tthe table of a collection that is gone\n")
    case.file("t/sub/none.table", b"")
    case.file("t/sub/none", b"")
    made = 2 + len([name for name in os.listdir(case.path("t")) if name.startswith(b"set.")]) + 1 + 3
    told = b"mg-collect: passed by %d files of sets, tables and collections\n" % made
    case.made("a folder with a set in it", [b"one\n"], row(1, b"t/a", 0, 4), b"documents 1\n", "folder", "new", "t", told=told)
    os.truncate(case.path("t/set.head"), 0)
    case.made("a set that is being built", [b"one\n"], row(1, b"t/a", 0, 4), b"documents 1\n", "folder", "new", "t", told=told)
    for name, content in [("x.head", b"MGROWv2\n"), ("x.table", b"a table\n"), ("x", b""), ("y.table", b"1\tx\n"), ("y", b"text"), ("z.table", b"")]:
        case.file("u/" + name, content)
    rows = b"".join(row(n, b"u/" + name, 0, length) for n, (name, length) in enumerate([(b"x", 0), (b"x.head", 8), (b"x.table", 8), (b"y", 4), (b"z.table", 0)], 1))
    documents = [b"", b"MGROWv2\n", b"a table\n", b"text", b""]
    told = b"mg-collect: passed by 1 files of sets, tables and collections\n"
    case.made("files of such names", documents, rows, b"documents 5\n", "folder", "new", "u", told=told)


def originals(case):
    """The bytes of a message in its source, by the library: where the table says, and where they are by now."""
    sys.path.insert(0, str(ROOT / "contrib"))
    from mg_archives.originals import read_original
    from mg_archives.refusals import Refusal
    from mg_archives.tables import read_table

    one, two = b"Message-ID: <1@x>\nSubject: one\n\n>From here\n", b"Message-ID: <2@x>\n\ntwo\n"
    line = b"From a@b.example Thu Jan  1 00:00:00 1970\n"
    case.file("box", line + one + b"\n" + line + two + b"\n")
    case.file("Mail/cur/1:2,", one)
    case.file("Mail/new/2", two)
    case.file("file.gz", gzip.compress(two))
    for kind, sources in [("mbox", ["box"]), ("maildir", ["Mail"]), ("files", ["file.gz"])]:
        case.run(kind, kind + ".all", *[case.path(source) for source in sources])
    rows = {kind: list(read_table(case.path(kind + ".all.table"))) for kind in ["mbox", "maildir", "files"]}
    got = {kind: [read_original(each) for each in found] for kind, found in rows.items()}
    case.check("originals", got, {"mbox": [one, two], "maildir": [one, two], "files": [two]})
    case.file("box", line + b"Subject: new\n\n\n" + line + two + b"\n")
    os.rename(case.path("Mail/cur/1:2,"), case.path("Mail/cur/1:2,RS"))
    os.rename(case.path("Mail/new/2"), case.path("Mail/cur/77:2,S"))
    case.check("originals that moved", [read_original(rows["mbox"][1]), *map(read_original, rows["maildir"])], [two, one, two])
    for name, each in [("box", rows["mbox"][0]), ("file.gz", rows["files"][0])]:
        if name == "file.gz":
            os.remove(case.path(name))
        try:
            told = read_original(each)
        except Refusal as refusal:
            told = (refusal.status, refusal.text)
        case.check(f"an original that is gone: {name}", told, (2, f"{os.fsdecode(case.path(name))}: document 1 is not there any more"))


def every_part(suite):
    for part in [odd_files, links, filters, compressed, text, made_files, originals]:
        with fresh_folder(suite) as folder:
            part(Collect(suite, folder))


PARTS = [every_part]
