"""The program mg-archive, of which mg-archive(1) is the manual."""

import argparse
import contextlib
import os
import signal
import sys

from mg_archives.archive_folder import Archive
from mg_archives.collect import KINDS, SIGNALS, Parser, byte, end_by_signal, folder_name, listed_names
from mg_archives.refusals import FAILED, LEFT_OUT, USAGE, Refusal, shown
from mg_archives.streams import write_whole

PROGRAM = "mg-archive"
MOST_ROWS = 1048576
USAGE_TEXT = """\
usage: mg-archive ARCHIVE add [OPTION]... mbox|maildir|folder|files [SOURCE]...
       mg-archive ARCHIVE find [--boolean|--phrase] [--count|--json] [--rows N] WORDS...
       mg-archive ARCHIVE show [--original] N
       mg-archive ARCHIVE status
options of add: --raw, --skip, --replace BYTE, --filter COMMAND, --text, --budget BYTES
"""


def whole_number(text):
    """A number of rows or of a document."""
    if not text.isascii() or not text.isdigit() or not 1 <= int(text) <= (1 << 32):
        raise argparse.ArgumentTypeError(f"{text!r} is no number from 1 on")
    return int(text)


def parser_of(command):
    """What the words behind a command may be."""
    parser = Parser(prog=PROGRAM, allow_abbrev=False, usage=USAGE_TEXT)
    if command == "add":
        for option in ("--raw", "--skip", "--text"):
            parser.add_argument(option, action="store_true")
        parser.add_argument("--replace", "-r", type=byte)
        parser.add_argument("--filter")
        parser.add_argument("--budget", type=whole_number)
        parser.add_argument("kind", choices=KINDS)
        parser.add_argument("names", nargs="*", type=os.fsencode)
    elif command == "find":
        kinds, forms = parser.add_mutually_exclusive_group(), parser.add_mutually_exclusive_group()
        for group, option in [(kinds, "--boolean"), (kinds, "--phrase"), (forms, "--count"), (forms, "--json")]:
            group.add_argument(option, action="store_true")
        parser.add_argument("--rows", type=whole_number, default=10)
    elif command == "show":
        parser.add_argument("--original", action="store_true")
        parser.add_argument("number", type=whole_number)
    return parser


def split_words(words):
    """The options of find and the words that are asked for: a word may begin with a minus."""
    options, asked = [], []
    rest = iter(words)
    for word in rest:
        if word == "--":
            asked += rest
        elif word == "--rows":
            options += [word, next(rest, "")]
        elif word.startswith("--"):
            options.append(word)
        else:
            asked.append(word)
    return options, asked


def tell(lines):
    """Lines on standard error, with bytes of names that are no UTF-8 as they are."""
    with contextlib.suppress(OSError):
        write_whole(2, "".join(f"{PROGRAM}: {line}\n" for line in lines).encode("utf-8", "surrogateescape"))


def start(archive):
    from mg_archives.archive_program import Program

    return Program(archive.root)


def run_add(archive, words):
    from mg_archives.archive_add import add
    from mg_archives.choices import Choices

    parser = parser_of("add")
    given = parser.parse_intermixed_args(words)
    names = given.names
    if given.kind in ("mbox", "maildir") and (given.filter is not None or given.text):
        parser.error(f"--filter and --text are nothing for {given.kind}")
    if given.kind == "files" and not names:
        names = listed_names()
    elif not names:
        parser.error(f"{given.kind} wants a source")
    if given.kind in ("maildir", "folder"):
        names = [folder_name(name) for name in names]
    for number in SIGNALS:
        if signal.getsignal(number) != signal.SIG_IGN:
            signal.signal(number, end_by_signal)
    choices = Choices(given.raw, given.replace, given.skip, given.filter, given.text)
    return print_added(choices, add(archive, given.kind, names, choices, given.budget))


def print_added(choices, added):
    """What came, on standard output, and what did not, on standard error; answers the status."""
    tally = added.tally
    counts = {"replaced": tally.replaced, "undecoded": tally.undecoded, "skipped": len(tally.odd), "links": tally.links, "made": tally.made}
    lines = [f"added {tally.documents}", f"known {added.known}", f"documents {added.documents}"]
    lines += [f"{name} {count}" for name, count in counts.items() if count]
    tell([f"left out {shown(name)}: {why}" for name, why in tally.odd])
    write_whole(1, "".join(line + "\n" for line in lines).encode())
    return LEFT_OUT if tally.odd and not choices.skip else 0


def run_find(archive, words):
    from mg_archives.archive_find import find_and_print

    options, asked = split_words(words)
    if asked in (["-h"], []) and not options:
        options = ["--help"] if asked else options
    parser = parser_of("find")
    given, strange = parser.parse_known_args(options)
    if strange:
        parser.error(f"there is no option {strange[0]}; a word to leave out has one minus: -{strange[0].strip('-')}")
    given.rows = min(given.rows, MOST_ROWS)
    hint(asked, given)
    find_and_print(archive, lambda: start(archive), " ".join(asked), given)
    return 0


def hint(asked, given):
    """Tells someone at a terminal that the shell took the quotes of what may be meant as a phrase."""
    plain = [word for word in asked if " " in word.strip() and not set(word) & set('"“”„‟«»()&|!')]
    if plain and sys.stderr.isatty() and not (given.phrase or given.boolean):
        tell([f"taken as single words: {plain[0]} (a phrase is written '\"{plain[0]}\"')"])


def run_show(archive, words):
    from mg_archives.archive_find import document, print_document

    given = parser_of("show").parse_args(words)
    if given.original:
        from mg_archives.archive_original import original

        write_whole(1, original(archive, given.number))
    else:
        print_document(document(archive, lambda: start(archive), given.number))
    return 0


def run_status(archive, words):
    from mg_archives.archive_status import status_lines

    parser_of("status").parse_args(words)
    write_whole(1, "".join(line + "\n" for line in status_lines(archive)).encode("utf-8", "surrogateescape"))
    return 0


COMMANDS = {"add": run_add, "find": run_find, "show": run_show, "status": run_status}


def run(words):
    """Does what the words say, and answers the status."""
    parser = Parser(prog=PROGRAM, allow_abbrev=False, usage=USAGE_TEXT)
    if words[:1] in (["-h"], ["--help"]):
        parser.print_help()
        return 0
    if len(words) < 2 or not words[0] or words[1] not in COMMANDS:
        parser.error("an archive and one of add, find, show and status are wanted")
    if words[1] != "add":
        # An interrupt, or a reader that goes away, ends this program as it ends others in a pipe.
        for number in (signal.SIGINT, signal.SIGPIPE):
            signal.signal(number, signal.SIG_DFL)
    return COMMANDS[words[1]](Archive(words[0]), words[2:])


def main(words=None):
    """The whole program; answers its status."""
    try:
        return run(sys.argv[1:] if words is None else words)
    except Refusal as refusal:
        tell([refusal.text])
        return refusal.status
    except MemoryError:
        tell(["memory lacks"])
        return FAILED
    except OSError as error:
        tell([f"{shown(error.filename) + ': ' if error.filename else ''}{error.strerror or error}"])
        return FAILED
