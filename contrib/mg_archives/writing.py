"""The files of a collection and its table, written beside their names and moved there when all is done."""

import os
import secrets
import shutil
import stat

from mg_archives.refusals import FAILED, Refusal, shown, unwritten
from mg_archives.trees import WORK

CLOSE = b"\x02"
ROOM = 1 << 20


def target_of(path):
    """Where a file of this name is to be written: behind symbolic links, and never in place of a folder or a device."""
    target = os.path.realpath(path)
    try:
        mode = os.stat(target).st_mode
    except OSError:
        return target
    if stat.S_ISDIR(mode):
        raise Refusal(FAILED, f"{shown(path)}: it is a folder")
    if not stat.S_ISREG(mode):
        raise Refusal(FAILED, f"{shown(path)}: it is no plain file")
    return target


class Output:
    """A collection and its table in the making, in a work folder beside the collection."""

    def __init__(self, collection, table):
        self.names = (collection, table)
        self.targets = [target_of(name) for name in self.names]
        self.files = []
        # The name is known before the folder is there, so that a signal between the two leaves nothing.
        self.folder = os.path.join(os.path.dirname(self.targets[0]), WORK + secrets.token_hex(8).encode())

    def __enter__(self):
        try:
            self.tried(self.names[0], os.mkdir, self.folder)
            for place, name in enumerate(self.names):
                self.files.append(self.tried(name, open, self.work_file(place), "wb", ROOM))
        except BaseException:
            self.remove()
            raise
        return self

    def __exit__(self, *_):
        self.remove()

    def work_file(self, place):
        return os.path.join(self.folder, (b"collection", b"table")[place])

    def tried(self, name, action, *values):
        """Does what may fail where the disk is full or the name is no good."""
        try:
            return action(*values)
        except OSError as error:
            raise unwritten(name, error) from error

    def write(self, place, data):
        self.tried(self.names[place], self.files[place].write, data)

    def add(self, data, row):
        """Writes a document and its row."""
        self.write(0, data)
        self.write(0, CLOSE)
        self.write(1, row.line())

    def finish(self):
        """Moves both files into place, when the disk has all their bytes."""
        for name, file in zip(self.names, self.files):
            self.tried(name, file.flush)
            self.tried(name, os.fsync, file.fileno())
            self.tried(name, file.close)
        for place, name in enumerate(self.names):
            self.tried(name, os.replace, self.work_file(place), self.targets[place])

    def remove(self):
        """Takes the work folder away, with what is in it."""
        for file in self.files:
            try:
                file.close()
            except OSError:
                pass
        shutil.rmtree(self.folder, ignore_errors=True)


def write_documents(pairs, output, tally, first=1, progress=None):
    """Writes documents with their rows, numbered from `first`."""
    for number, (data, row) in enumerate(pairs, first):
        row.number = number
        output.add(data, row)
        tally.documents += 1
        tally.bytes += len(data) + len(CLOSE)
        if progress:
            progress.show()
