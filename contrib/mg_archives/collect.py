"""The program mg-collect, of which mg-collect(1) is the manual."""

import argparse
import contextlib
import os
import signal
import sys

from mg_archives.choices import Choices, Tally
from mg_archives.progress import Progress
from mg_archives.refusals import FAILED, LEFT_OUT, REFUSED, USAGE, Refusal, shown
from mg_archives.streams import write_whole

PROGRAM = "mg-collect"
SIGNALS = (signal.SIGHUP, signal.SIGINT, signal.SIGTERM)
KINDS = ("mbox", "maildir", "folder", "files")
USAGE_TEXT = """\
usage: mg-collect [OPTION]... mbox COLLECTION FILE...
       mg-collect [OPTION]... maildir COLLECTION FOLDER...
       mg-collect [OPTION]... folder COLLECTION FOLDER...
       mg-collect [OPTION]... files COLLECTION [FILE...]
       mg-collect names TABLE...
options: --raw, --skip, --replace BYTE (-r BYTE), --filter COMMAND, --text, --help
"""


class Parser(argparse.ArgumentParser):
    """The library's, with a program's own words and status for what is not understood."""

    def error(self, message):
        sys.stderr.write(f"{self.prog}: {message}\n{self.usage}")
        sys.exit(USAGE)

    def format_help(self):
        return self.usage


def byte(text):
    """One byte that may stand in a document."""
    value = os.fsencode(text)
    if len(value) != 1 or value == b"\x02":
        raise argparse.ArgumentTypeError("one byte is wanted, and no control-B")
    return value


def understood(words):
    """The words of the command line; the program ends where they are not understood."""
    parser = Parser(prog=PROGRAM, allow_abbrev=False, usage=USAGE_TEXT)
    parser.add_argument("--raw", action="store_true")
    parser.add_argument("--skip", action="store_true")
    parser.add_argument("-r", "--replace", type=byte)
    parser.add_argument("--filter")
    parser.add_argument("--text", action="store_true")
    parser.add_argument("command", choices=[*KINDS, "names"])
    parser.add_argument("names", nargs="*", type=os.fsencode)
    given = parser.parse_intermixed_args(words)
    check_words(parser, given)
    return given


def check_words(parser, given):
    """Each command has its names, and the options that mean something there."""
    options = [name for name in ("raw", "skip", "replace", "filter", "text") if getattr(given, name) not in (None, False)]
    allowed = {"names": [], "mbox": ["raw", "skip", "replace"], "maildir": ["raw", "skip", "replace"]}
    for option in options:
        if option not in allowed.get(given.command, options):
            parser.error(f"--{option} is nothing for {given.command}")
    fewest = {"names": 1, "files": 1}.get(given.command, 2)
    if len(given.names) < fewest:
        parser.error(f"{given.command} wants more names")
    if given.command != "names" and not given.names[0]:
        parser.error("an empty name")


def listed_names():
    """The names on standard input, one a line."""
    with open(0, "rb", closefd=False) as file:
        text = file.read()
    return text.removesuffix(b"\n").split(b"\n") if text else []


def folder_name(name):
    """A folder's name as it begins the names of its files: without a slash at its end, and not like an option."""
    name = b"./" + name if name.startswith(b"-") else name
    return name.rstrip(b"/") or b"/"


def check_sources(names, targets):
    """What is read is not written over."""
    for name in names:
        for target in targets:
            try:
                same = os.path.samefile(name, target)
            except OSError:
                continue
            if same:
                raise Refusal(REFUSED, f"{shown(name)}: it would be written over by the collection or its table")


def collect(kind, names, collection, choices, tally):
    """Makes a collection and its table beside it from these mailboxes, folders or files."""
    # What only this command needs is loaded here: `names` is to answer at once.
    from mg_archives.documents import read_documents
    from mg_archives.writing import Output, write_documents

    targets = [collection, collection + b".table"]
    check_sources(names, targets)
    progress = Progress(tally)
    with Output(*targets) as output:
        pairs = read_documents(kind, names, choices, tally, leave=[*targets, output.folder])
        try:
            write_documents(pairs, output, tally, progress=progress)
        finally:
            progress.clear()
        output.finish()


def print_tally(choices, tally):
    """What was made, on standard output, and what was not, on standard error."""
    lines = [f"documents {tally.documents}"]
    if choices.replace is not None or tally.replaced:
        lines.append(f"replaced {tally.replaced}")
    if tally.undecoded:
        lines.append(f"undecoded {tally.undecoded}")
    if tally.odd:
        lines.append(f"skipped {len(tally.odd)}")
    told = [f"left out {shown(name)}: {why}" for name, why in tally.odd]
    if tally.made:
        told.append(f"passed by {tally.made} files of sets, tables and collections")
    if tally.links:
        told.append(f"passed by {tally.links} symbolic links and devices")
    if tally.odd and not choices.skip:
        told.append(f"{len(tally.odd)} documents were left out; --skip says that this is meant, --replace BYTE takes such bytes")
    tell(told)
    write_whole(1, "".join(line + "\n" for line in lines).encode())


def tell(lines):
    """Lines on standard error, with bytes of names that are no UTF-8 as they are."""
    text = "".join(f"{PROGRAM}: {line}\n" for line in lines)
    with contextlib.suppress(OSError):
        write_whole(2, text.encode("utf-8", "surrogateescape"))


def end_by_signal(number, _):
    """Ends the program, which takes its work folder away; a second signal does not disturb it."""
    for other in SIGNALS:
        signal.signal(other, signal.SIG_IGN)
    sys.exit(128 + number)


def run(given):
    """Does what the words say, and answers the status."""
    if given.command == "names":
        from mg_archives.names import name_rows

        name_rows(given.names)
        return 0
    for number in SIGNALS:
        if signal.getsignal(number) != signal.SIG_IGN:
            signal.signal(number, end_by_signal)
    collection, *names = given.names
    choices = Choices(given.raw, given.replace, given.skip, given.filter, given.text)
    if given.command in ("maildir", "folder"):
        names = [folder_name(name) for name in names]
    elif given.command == "files" and not names:
        names = listed_names()
    tally = Tally()
    collect(given.command, names, collection, choices, tally)
    print_tally(choices, tally)
    return LEFT_OUT if tally.odd and not choices.skip else 0


def main(words=None):
    """The whole program; answers its status."""
    try:
        return run(understood(words))
    except Refusal as refusal:
        tell([refusal.text])
        return refusal.status
    except MemoryError:
        tell(["memory lacks"])
        return FAILED
    except OSError as error:
        tell([f"{shown(error.filename) + ': ' if error.filename else ''}{error.strerror or error}"])
        return FAILED
