"""The files of a folder and all folders below it, without what mg and its programs made there."""

import os

from mg_archives.refusals import unread

WORK = b".mg-collect."
MAGIC = b"MGROWv"
PARTS = (
    b".head", b".words", b".nonwords", b".text", b".places", b".lex", b".lexat", b".post", b".skip", b".weights", b".run",
    b".mergea", b".mergeb",
)
# A folder with a head and so many other parts has a set; one that is being built has an empty head.
FEWEST_PARTS = 4
TABLE = b".table"


def beginning(path, size):
    try:
        with open(path, "rb") as file:
            return file.read(size)
    except OSError:
        return None


def parts_made(folder, name, names):
    """The parts of the set whose head has this name; none where it is another file."""
    stem = name.removesuffix(b".head")
    parts = {stem + ending for ending in PARTS} & names
    head = beginning(os.path.join(folder, name), len(MAGIC))
    return parts if len(parts) >= FEWEST_PARTS and head in (b"", MAGIC) else set()


def is_collection(path):
    """Whether a file is empty or ends with the byte that closes a document."""
    try:
        with open(path, "rb") as file:
            size = file.seek(0, os.SEEK_END)
            file.seek(max(0, size - 1))
            return file.read() in (b"", b"\x02")
    except OSError:
        return False


def tables_made(folder, name, names):
    """The table of this name and the collection that it is of; none where it is another file."""
    stem = name.removesuffix(TABLE)
    collection = {stem} if stem in names and is_collection(os.path.join(folder, stem)) else set()
    text = beginning(os.path.join(folder, name), 2)
    return {name} | collection if text == b"1\t" or (text == b"" and collection) else set()


def made_in(folder, names):
    """Which of these files of a folder mg or mg-collect made."""
    made = set()
    for name in names:
        if name.endswith(b".head"):
            made |= parts_made(folder, name, names)
        elif name.endswith(TABLE):
            made |= tables_made(folder, name, names)
    return made


class Tree:
    """A walk through a folder, in the order of the bytes of the paths. `leave` are places, each a device and a number of
    a file, that are passed by."""

    def __init__(self, tally, leave):
        self.tally = tally
        self.leave = leave
        self.left_numbers = {number for _, number in leave}

    def is_left(self, entry):
        if entry.inode() not in self.left_numbers:
            return False
        found = entry.stat(follow_symlinks=False)
        return (found.st_dev, found.st_ino) in self.leave

    def entries(self, folder):
        """What stands in a folder: pairs of a path and whether it is a folder; the last one comes first."""
        with os.scandir(folder) as found:
            entries = [entry for entry in found if not self.is_left(entry)]
        folders = {entry.name for entry in entries if entry.is_dir(follow_symlinks=False)}
        files = {entry.name for entry in entries if entry.is_file(follow_symlinks=False)}
        self.tally.links += len(entries) - len(folders) - len(files)
        made = made_in(folder, files)
        work = {name for name in folders if name.startswith(WORK)}
        self.tally.made += len(made) + len(work)
        pairs = [(name + b"/", True) for name in folders - work] + [(name, False) for name in files - made]
        return [(os.path.join(folder, name), inner) for name, inner in sorted(pairs, reverse=True)]

    def files(self, top):
        """Each file's path. A folder below that cannot be read is told as odd."""
        waiting = self.entries(top)
        while waiting:
            path, inner = waiting.pop()
            if not inner:
                yield path
                continue
            try:
                waiting += self.entries(path)
            except OSError as error:
                self.tally.odd.append((path, unread(error)))
