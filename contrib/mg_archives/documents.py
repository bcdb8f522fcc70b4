"""The documents of mailboxes, folders and lists of files, one by one, each with its row of the table."""

import os
import re
import subprocess

from mg_archives import hypertext, maildirs, mboxes, messages
from mg_archives.refusals import FAILED, REFUSED, Refusal, shown, unread
from mg_archives.sources import ENDINGS, STANDARD_INPUT, Damaged, Source, read_file, uncompressed
from mg_archives.tables import Row
from mg_archives.texts import encoded, marked, plain_signs
from mg_archives.trees import Tree

ODD_BYTE = re.compile(b"[\x00\x02]")
BYTE_NAMES = {b"\x00": "null byte", b"\x02": "control-B"}
PAGE_ENDINGS = (b".html", b".htm", b".xhtml")
# How much of what a filter says is told.
MOST_SAID = 200


class Odd(Exception):
    """A document is left out; the text says why."""


def place_of(data, place, line=1):
    """A place in a document, as its line and byte, both from 1, where the document's first line has this number."""
    return f"{line + data.count(10, 0, place)}:{place - data.rfind(10, 0, place)}"


class Reader:
    """Makes documents of what the sources hold, as the user chose; what is odd goes into the tally."""

    def __init__(self, choices, tally):
        self.choices = choices
        self.tally = tally

    def left_out(self, name, why):
        self.tally.odd.append((name, why))

    def cleaned(self, data, kinds, line=1):
        """A document without the bytes that none may have."""
        for byte in kinds:
            if byte not in data:
                continue
            if self.choices.replace is None:
                raise Odd(f"a {BYTE_NAMES[byte]} at {place_of(data, data.index(byte), line)}")
            self.tally.replaced += data.count(byte)
            data = data.replace(byte, self.choices.replace)
        return data

    def message(self, data, row, line=1):
        """The document of a message; what its fields tell goes into the row."""
        if self.choices.raw:
            messages.name_row(row, messages.fields_of(data)[0])
            return self.cleaned(data, [b"\x02"], line)
        try:
            fields, start = messages.fields_of(data)
            texts = messages.texts_of(fields)
            messages.put_texts(row, texts)
            text, whole = messages.text_of(data, fields, texts, start)
        except MemoryError:
            raise
        except Exception:  # whatever a strange message does to the library, it is taken as it is
            text, whole = data, False
        self.tally.undecoded += not whole
        if ODD_BYTE.search(text):
            text, count = ODD_BYTE.subn(self.choices.replace or b" ", text)
            self.tally.replaced += count
        return text

    def mailbox(self, path):
        """The messages of an mbox."""
        try:
            with Source(path) as source:
                for offset, line, message in mboxes.Mbox(source).messages():
                    row = Row(path=path, offset=offset, length=len(message))
                    try:
                        yield self.message(mboxes.unquoted(message), row, line), row
                    except Odd as odd:
                        self.left_out(path, str(odd))
        except OSError as error:
            raise Refusal(FAILED, f"{shown(path)}: {unread(error)}") from error
        except Damaged as error:
            raise Refusal(FAILED, f"{shown(path)}: {error}") from error

    def mail_file(self, path):
        """The message of a file of a Maildir, which a mail program may rename or take away meanwhile."""
        try:
            data = read_file(path)
        except FileNotFoundError as error:
            path = maildirs.renamed(path)
            if not path:
                raise Odd("it went away") from error
            data = read_file(path)
        data = uncompressed(data)
        check_name(path)
        row = Row(path=path, length=len(data))
        return self.message(data, row), row

    def filtered(self, data, path):
        """What the user's command makes of a file."""
        run = subprocess.run(
            ["/bin/sh", "-c", self.choices.filter], input=data, capture_output=True, env={**os.environ, "MG_FILE": os.fsdecode(path)}
        )
        if run.returncode == 0:
            return run.stdout
        ended = f"status {run.returncode}" if run.returncode > 0 else f"signal {-run.returncode}"
        said = run.stderr.decode("utf-8", "replace").strip()[:MOST_SAID].replace("\n", "; ")
        raise Odd(f"the filter ended with {ended}{': ' + said if said else ''}")

    def as_text(self, data, path):
        """A document as text in UTF-8."""
        name = os.path.splitext(path)[0] if path.endswith(ENDINGS) else path
        if name.lower().endswith(PAGE_ENDINGS) or hypertext.is_hypertext(data):
            return encoded(plain_signs(hypertext.text_of(hypertext.page_of(data)[0])))
        text = marked(data)
        if text is None:
            if data.isascii():
                return data
            text = data.decode("utf-8", "surrogateescape")
        return encoded(plain_signs(text))

    def file(self, path):
        """The document of a file."""
        check_name(path)
        data = read_file(path)
        if not self.choices.raw and (path.endswith(ENDINGS) or path == STANDARD_INPUT):
            data = uncompressed(data)
        row = Row(path=path, length=len(data))
        if self.choices.filter:
            data = self.filtered(data, path)
        if self.choices.text:
            data = self.as_text(data, path)
        return self.cleaned(data, [b"\x00", b"\x02"]), row

    def each(self, paths, read):
        """The documents of these paths; what cannot be read or is odd is told and left out."""
        for path in paths:
            try:
                yield read(path)
            except OSError as error:
                self.left_out(path, unread(error))
            except (Odd, Damaged) as error:
                self.left_out(path, str(error))


def check_name(path):
    """A name is one column of a line of the table."""
    if b"\t" in path or b"\n" in path:
        raise Odd("a name with a tab or a newline")


def check_given(path):
    """A file that the user named is there and can be read, and has a name that a table can hold."""
    if not path:
        raise Refusal(REFUSED, "an empty name")
    if b"\t" in path or b"\n" in path:
        raise Refusal(REFUSED, f"a name with a tab or a newline: {shown(path)}")
    if path == STANDARD_INPUT:
        return
    try:
        if os.path.isdir(path):
            raise IsADirectoryError(21, "is a folder")
        os.stat(path)
        if not os.access(path, os.R_OK):
            raise PermissionError(13, "it cannot be read")
    except OSError as error:
        raise Refusal(FAILED, f"{shown(path)}: {unread(error)}") from error


def check_folder(path):
    """A folder that the user named is one, and can be read."""
    try:
        with os.scandir(path):
            pass
    except (FileNotFoundError, NotADirectoryError) as error:
        raise Refusal(FAILED, f"{shown(path)}: there is no such folder") from error
    except OSError as error:
        raise Refusal(FAILED, f"{shown(path)}: {unread(error)}") from error


def places_of(paths):
    """Where the paths that are there stand: a device and a number of a file each."""
    found = set()
    for path in paths:
        try:
            status = os.stat(path)
        except OSError:
            continue
        found.add((status.st_dev, status.st_ino))
    return found


def read_documents(kind, names, choices, tally, leave=()):
    """Pairs of a document's bytes and its row, from the `mbox`, `maildir`, `folder` or `files` of these names."""
    reader = Reader(choices, tally)
    if kind in ("mbox", "files"):
        for name in names if kind == "mbox" or not choices.skip else ():
            check_given(name)
    else:
        for name in names:
            check_folder(name)
    if kind == "mbox":
        for name in names:
            yield from reader.mailbox(name)
    elif kind == "maildir":
        for name in names:
            yield from reader.each(maildirs.mail_files(name), reader.mail_file)
    elif kind == "folder":
        tree = Tree(tally, places_of(leave))
        for name in names:
            yield from reader.each(tree.files(name), reader.file)
    else:
        yield from reader.each(names, reader.file)
