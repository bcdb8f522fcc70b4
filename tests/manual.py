"""The manual: its pages are well formed, its examples print what they say, and each of its statuses, refused lines,
commands and limits is what the program does.

The texts that are wanted are read from the pages, so that a page cannot say one thing and the program do another.
"""

import os
import pty
import re
import resource
import select
import shlex
import shutil
import signal
import subprocess

from files import K
from transcripts import ROOT, VERSION, fresh_folder, manual_blocks, run_block, tools
from usages import hint, synopsis

MAN = ROOT / "man"
PAGES = ["mg.1", "mg-collect.1", "mg-archive.1", "mg-shards.1", "mg-files.5"]
# How many commands the examples of each page have: one that is not found is not run.
COMMANDS = {"mg.1": 19, "mg-collect.1": 11, "mg-archive.1": 8, "mg-shards.1": 9, "mg-files.5": 22}


def lint(suite):
    """mandoc finds nothing to say, but that a page that is named is not installed here, and that mg is no operating system."""
    if not shutil.which("mandoc"):
        suite.check("mandoc is installed (Debian's package mandoc)", False, True)
        return
    for page in PAGES:
        told = subprocess.run(["mandoc", "-T", "lint", MAN / page], capture_output=True, text=True).stdout
        known = ["referenced manual not found", "mandoc.db", "operating system explicitly specified: Os mg"]
        others = [line for line in told.splitlines() if not any(text in line for text in known)]
        suite.check(f"mandoc of {page}", others, [])
        for name, section in re.findall(r"^\.Xr (mg\S*) (\d)", (MAN / page).read_text(), re.M):
            suite.check(f"{page}: {name}({section}) is there", f"{name}.{section}" in PAGES, True)
        shown = subprocess.run(["mandoc", "-T", "ascii", MAN / page], capture_output=True, text=True).stdout
        shown = re.sub(".\b", "", shown).replace("@VERSION@", VERSION)
        lines = [line.rstrip() for block in manual_blocks(MAN / page) for line in block]
        suite.check(f"{page} shows its examples", [line for line in lines if line.expandtabs() not in shown], [])


def examples(suite):
    """The examples of each page, each in a folder of its own."""
    for page in PAGES:
        count = 0
        for block in manual_blocks(MAN / page):
            with fresh_folder(suite) as folder:
                count += run_block(suite, page, block, folder)
        suite.check(f"commands of {page}", count, COMMANDS[page])


def first_version(suite):
    """The head and the places of version 1 that mg-files(5) shows are those of the reference."""
    from parts import build
    from texts import Collection

    parts = build(Collection(b"a a a a "), 16_777_216, 1)
    block = next(block for block in manual_blocks(MAN / "mg-files.5") if block[0].startswith("head:"))
    shown = bytes.fromhex(re.sub(r"\w+:", "", " ".join(block)))
    suite.check("the set of version 1 in mg-files(5)", shown, parts["head"] + parts["places"])


def section(page, name):
    return re.search(rf"^\.S[hs] (?:\\&)?{name}\n(.*?)(?=^\.S[hs] |\Z)", (MAN / page).read_text(), re.M | re.S)[1]


def pattern(words):
    """What a line with `Li` and `Ar` may look like: literal words as they are, arguments of any kind."""
    text = ""
    tight = True
    for word in shlex.split(words):
        if word == "Ns":
            tight = True
        elif word not in ("Li", "Ar", "Cm", "Ic"):
            text += ("" if tight else " ") + (re.escape(word) if literal else "(.+)")
            tight = False
        if word in ("Li", "Ar", "Cm", "Ic"):
            literal = word != "Ar"
    return text


def told_statuses():
    """The statuses of mg(1), each with the patterns of its lines."""
    statuses = {}
    for number, words in re.findall(r"^\.It (\d+) ?(.*)$", section("mg.1", "EXIT STATUS"), re.M):
        statuses.setdefault(int(number), []).append(pattern(words))
    return statuses


def told(suite, statuses, status, run):
    """A run ended with this status and with the line that the manual has for it; at status 1 the hint follows."""
    line = run[2].decode()
    if status == 1:
        line, _, hinted = line.partition("\n")
        line += "\n"
        suite.check(f"the hint {hinted!r}", hinted in [hint(words) for words in ([], *([tool] for tool in synopsis()))], True)
    lines = statuses.get(status, [])
    fits = any(re.fullmatch(wanted + "\n" if wanted else "", line) for wanted in lines)
    suite.check(f"status {status} of the manual: {line!r}", (run[0], fits), (status, True))


def statuses(suite):
    """Each status that can be had in a short time, with the line that the manual says."""
    lines = told_statuses()
    suite.check("the statuses of the manual", sorted(lines), [*range(15), 16, 17, 18])
    suite.file("text", K)
    suite.file("N.head", K)
    suite.file("M.head", b"MGROWv2\n\0\0")
    (suite.folder / "folder").mkdir(exist_ok=True)
    for status, words, given in [
        (0, ["build", "text", "set"], b""), (0, ["scan", "text"], b"sat\n"), (0, ["query", "set"], b"cat & (\n"),
        (0, ["build", "text", "--", "-x"], b""), (0, ["decode", "--", "-x"], b""),
        (1, ["index", "text"], b""), (1, ["trial", "1", "20001"], b""), (1, ["query", ""], b""),
        (2, ["scan", "folder"], b""), (2, ["build", "text", "nowhere/set"], b""), (5, ["query", "none"], b""),
        (5, ["decode", "none"], b""), (6, ["decode", "M"], b""), (0, ["check", "set"], b""), (5, ["check", "none"], b""), (6, ["check", "M"], b""), (7, ["scan", "none"], b""), (7, ["build", "none", "set"], b""),
        (13, ["build", "N.head", "N"], b""), (16, ["migrate", "set", "set"], b""), (16, ["merge", "set", "set", "set"], b""), (5, ["phrase", "none"], b""), (5, ["wild", "none"], b""),
        (18, [b"scan", b"\xff"], b""),
    ]:
        told(suite, lines, status, suite.run(words, given))
    folder = os.open(suite.folder, os.O_RDONLY)
    told(suite, lines, 3, suite.run(["query", "set"], stdin=folder))
    os.close(folder)
    with open("/dev/full", "wb") as full:
        told(suite, lines, 4, suite.run(["decode", "set"], stdout=full))
    with open(suite.folder / "large", "wb") as large:
        large.truncate(268_435_457)
        told(suite, lines, 8, suite.run(["scan", "large"]))
        large.truncate(1 << 32)
        told(suite, lines, 8, suite.run(["build", "large", "new"]))
    (suite.folder / "large").unlink()


def out_of_memory(suite):
    """A collection that is no larger than the limit, in less memory than it has bytes."""
    with open(suite.folder / "large", "wb") as large:
        large.truncate(200_000_000)
    few = lambda: resource.setrlimit(resource.RLIMIT_AS, (100_000_000, 100_000_000))
    run = subprocess.run([suite.program, "scan", "large"], cwd=suite.folder, input=b"a\n", capture_output=True, preexec_fn=few, timeout=300)
    told(suite, told_statuses(), 12, (run.returncode, run.stdout, run.stderr))
    (suite.folder / "large").unlink()


def read_so_far(process):
    """How many bytes a process has read; more than any file has, where it ended meanwhile."""
    try:
        with open(f"/proc/{process.pid}/io") as counts:
            return int(re.search(r"rchar: (\d+)", counts.read())[1])
    except OSError:
        return 1 << 64


def held(suite, data):
    """A build whose collection loses its second half while the program is held, at the first pages that it read."""
    suite.file("text", data)
    process = subprocess.Popen(
        [suite.program, "build", "text", "new"], cwd=suite.folder, stdout=subprocess.PIPE, stderr=subprocess.PIPE
    )
    while process.poll() is None and read_so_far(process) < 1 << 18:
        pass
    process.send_signal(signal.SIGSTOP)
    suite.file("text", data[: len(data) // 2])
    process.send_signal(signal.SIGCONT)
    out, err = process.communicate()
    return process.returncode, out, err


def changed(suite):
    """A collection that changes while it is read. A build that ended before it was held is tried again."""
    data = b"".join(b"%d some words of a document that is long enough\n\x02" % number for number in range(100_000))
    runs = (held(suite, data) for _ in range(5))
    told(suite, told_statuses(), 11, next((run for run in runs if run[0] != 0), (0, b"", b"")))


def refused_lines(suite):
    """Each refused line of the manual comes, and no other."""
    given = {
        "cat & |": "? syntax at 6", "(" * 33: "? too deep at 32", "a" * 256: "? word too long at 0", "x" * 1025: "? line too long",
        ".set maxdocs 0": "? bad command",
    }
    ranked = ".set query ranked\n" + " ".join(f"w{number}" for number in range(65))
    lines = [*given, ranked]
    suite.file("text", K)
    status, out, _ = suite.run(["scan", "text"], "\n".join(lines).encode())
    wanted = [*given.values(), "? too many words at 246"]
    suite.check("refused lines", (status, out.decode().splitlines()), (0, wanted))
    patterns = [pattern(words) for words in re.findall(r"^\.It (.*)$", section("mg.1", "Refused lines"), re.M)]
    matches = [[line for line in wanted if re.fullmatch(pattern, line)] for pattern in patterns]
    suite.check("the refused lines of the manual", sorted(line for found in matches for line in found), sorted(wanted))
    suite.check("each of them is one of these", [len(found) for found in matches], [1] * len(wanted))


def commands(suite):
    """Each command of the manual is one, and changes what it says."""
    suite.file("text", K)
    listed = re.findall(r"^\.It Ic (.*)$", section("mg.1", "Commands"), re.M)
    lines = [line.replace(" Ar number", " 2") for line in listed]
    status, out, _ = suite.run(["scan", "text"], "\n".join(lines).encode())
    suite.check("the commands of the manual are not refused", (len(lines), status, out), (8, 0, b""))
    queries = re.findall(r"^\.It Ic (\S.*) Ta", section("mg.1", "Boolean queries"), re.M)
    queries = [query.replace("\\&", "") for query in queries]
    out = suite.run(["scan", "text"], "\n".join([".set mode count", *queries]).encode())[1]
    suite.check("the operators of the manual", (queries, out), (["!cat", "cat & dog", "cat dog", "cat | dog"], b"= 1\n= 1\n= 1\n= 3\n"))


def limits(suite):
    """The limits of the manual that need no large collection: the greatest number is taken, the next one is not."""
    numbers = dict(re.findall(r"^\.It (.*) Ta (.*)$", section("mg.1", "LIMITS"), re.M))
    low, high = map(int, numbers["Ar bytes No of Fl \\-budget"].split(" to "))
    suite.file("text", K)
    for budget, status in [(low - 1, 1), (low, 0), (high + 1, 1)]:
        suite.check(f"a budget of {budget}", suite.run(["build", "text", "set", "--budget", str(budget)])[0], status)
    most = int(numbers["documents of Cm trial"])
    seed = int(numbers["Ar seed No of Cm trial"])
    for words, status in [([seed, 1], 0), ([seed + 1, 1], 1), ([1, most + 1], 1)]:
        suite.check(f"a trial of {words}", suite.run(["trial", *map(str, words)])[0], status)
    for line, limit, refusal in [
        (lambda n: f".set maxdocs {n}", "Ar number No of Ic .set maxdocs", "? bad command"),
        (lambda n: "a" * n, "bytes of a word", "? word too long at 0"),
        (lambda n: " " * (n - 1) + "a", "bytes of a line of a session", "? line too long"),
        (lambda n: "(" * n + "a" + ")" * n, "open parentheses of a Boolean query", "? too deep at 32"),
        (lambda n: ".set query ranked\n" + " ".join(f"w{i}" for i in range(n)), "distinct words of a ranked query", "? too many words at 246"),
    ]:
        greatest = int(numbers[limit])
        for number, refused in [(greatest, False), (greatest + 1, True)]:
            out = suite.run(["scan", "text"], line(number).encode())[1].decode()
            suite.check(f"{limit}: {number}", (refusal + "\n" == out) == refused and ("?" in out) == refused, True)


# What each line of the table for people who come from other systems means elsewhere, over the terms of a document.
HABITS = {
    "berth AND silt": lambda terms: "berth" in terms and "silt" in terms,
    "+berth +silt": lambda terms: "berth" in terms and "silt" in terms,
    "berth -silt": lambda terms: "berth" in terms and "silt" not in terms,
    "berth NOT silt": lambda terms: "berth" in terms and "silt" not in terms,
    "berth OR silt": lambda terms: "berth" in terms or "silt" in terms,
    '"north basin"': lambda terms: ("north", "basin") in zip(terms, terms[1:]),
    "thirty-eight": lambda terms: ("thirty", "eight") in zip(terms, terms[1:]),
    "dredg*": lambda terms: any(term.startswith("dredg") for term in terms),
    "from:mara": lambda terms: "mara" in terms,
    "“berth”": lambda terms: "berth" in terms,
}


def habits(suite):
    """Of each line that is written elsewhere: what it is taken as here, and that what to write instead answers what it
    means, in the sample."""
    letters = (ROOT / "examples" / "letters.mail").read_text()
    suite.file("letters", letters.encode())
    suite.run(["build", "letters", "letters", "--budget", "65536"])
    documents = [re.findall("[0-9a-z\x80-\U0010ffff]+", text.lower()) for text in letters.split("\x02")[:-1]]
    text = section("mg.1", "FROM OTHER SYSTEMS")
    for escape, sign in [("\\(dq", '"'), ("\\(lq", "“"), ("\\(rq", "”"), ("\\-", "-")]:
        text = text.replace(escape, sign)
    rows = re.findall(r"^\.It Ic (.*) Ta Ic (.*) Ta Ic (.*?)(?: No to Cm mg (.*))?$", text, re.M)
    suite.check("lines of other systems", sorted(row[0] for row in rows), sorted(HABITS))
    page = (ROOT / "docs" / "FROM-GREP.md").read_text().replace("\\|", "|")
    told = re.findall(r"^\| `(.*?)` \| `(.*?)` \| `(.*?)`(?: to `mg (.*)`)? \|$", page, re.M)
    suite.check("the same table in FROM-GREP.md", told, rows)
    for elsewhere, taken, write, tool in rows:
        replies = [suite.run(["query", "letters"], line.encode()) for line in (elsewhere, taken)]
        suite.check(f"{elsewhere} is taken as {taken}", replies[0], replies[1])
        out = suite.run([tool or "query", "letters"], write.encode())[1].decode()
        found = [int(number) for number in re.findall(r"^(\d+)(?: \d+)?$", out, re.M)]
        wanted = [number for number, terms in enumerate(documents, 1) if HABITS[elsewhere](terms)]
        suite.check(f"{elsewhere} is written {write}", (found, bool(wanted)), (wanted, True))


class Terminal:
    """A command in a terminal of its own, typed to line by line."""

    def __init__(self, suite, command):
        self.process, self.file = pty.fork()
        if self.process == 0:
            os.chdir(suite.folder)
            os.environ["PATH"] = f"{tools(suite)}:{os.environ['PATH']}"
            os.execvp("sh", ["sh", "-c", command])

    def seen(self, wanted=b""):
        """What is printed up to these bytes; without any, what is printed in a short while."""
        text = b""
        while select.select([self.file], [], [], 60 if wanted else 0.3)[0]:
            try:
                text += os.read(self.file, 4096)
            except OSError:
                break
            if wanted and text.endswith(wanted):
                break
        return text

    def end(self):
        """The status after control-D."""
        os.write(self.file, b"\x04")
        status = os.waitpid(self.process, 0)[1]
        os.close(self.file)
        return status


def by_hand(suite):
    """A session in a terminal: no prompt, each reply before the next line, and control-D ends it."""
    suite.file("text", K)
    suite.file("text.table", b"1\tfirst\n2\tsecond\n3\tthird\n")
    suite.run(["build", "text", "set"])
    tools(suite)
    for command, row in [("exec mg query set", b"1\r\n"), ("mg query set | mg-collect names text.table", b"1\tfirst\r\n")]:
        terminal = Terminal(suite, command)
        suite.check(f"{command}: no prompt", terminal.seen(), b"")
        for line, reply in [(b"sat", row + b"= 1\r\n"), (b"cat &", b"? syntax at 5\r\n")]:
            os.write(terminal.file, line + b"\n")
            suite.check(f"{command}: {line}", terminal.seen(reply), line + b"\r\n" + reply)
        suite.check(f"{command}: the end", terminal.end(), 0)


def greatest(suite):
    """The statuses of collections beyond the limits, and the greatest budget."""
    lines = told_statuses()
    suite.file("text", K)
    suite.check("the greatest budget", suite.run(["build", "text", "new", "--budget", "1073741824"])[0], 0)
    for status, data in [
        (9, b"\x02" * ((1 << 24) + 1)), (10, b"".join(b"%06x " % number for number in range((1 << 22) + 1))),
        (10, b"".join(b"a" + bytes(33 + (number >> shift & 7) for shift in range(0, 24, 3)) for number in range((1 << 22) + 1))),
    ]:
        suite.file("text", data)
        told(suite, lines, status, suite.run(["build", "text", "new"]))
    suite.file("text", b"")


PARTS = [lint, examples, first_version, statuses, out_of_memory, changed, refused_lines, commands, habits, limits, by_hand]
SLOW = [greatest]
