"""The folder of an archive: its generations, the file `current`, and the lock of the one that adds.

    ARCHIVE/current        which set answers: `3/set`, one line; renamed into place as the last step of an addition
    ARCHIVE/lock           locked while an addition runs; its text says who adds
    ARCHIVE/3/set.*        a generation: the set of mg, and what belongs to it
    ARCHIVE/3/set.table    the table of mg-collect
    ARCHIVE/3/set.origins  what is known of each document besides: see archive_origins
    ARCHIVE/3/set.added    a line for each addition: time, documents, and what was added
    ARCHIVE/adding/        what an addition writes; after a kill the next addition removes it

A generation never changes. A reader holds a shared lock on the table of the one that it reads, so that no addition
removes it meanwhile; for other readers the generation before `current` stays until the next addition begins.
"""

import contextlib
import dataclasses
import fcntl
import functools
import os
import re
import shutil
import socket
import time

from mg_archives.refusals import FAILED, REFUSED, Refusal, unwritten

BUSY = 6
CURRENT = re.compile(r"([1-9][0-9]*)/set\n")
GENERATION = re.compile(r"[1-9][0-9]*")
OWN = ("adding", "current", "current.new", "lock")
# For how long an addition waits for the lock: programs of one that was killed end by themselves, a moment later.
PATIENCE = 2.0


@dataclasses.dataclass
class Generation:
    """A set and what belongs to it. `root` is the archive's folder, and `name` the set's within it."""

    root: str
    name: str

    def path(self, ending):
        return os.path.join(self.root, self.name + ending)

    def size(self):
        """The bytes of all its files."""
        folder = os.path.dirname(self.path(""))
        return sum(os.path.getsize(os.path.join(folder, name)) for name in os.listdir(folder))


class Archive:
    """An archive by the name of its folder."""

    def __init__(self, root):
        self.root = root

    def path(self, name):
        return os.path.join(self.root, name)

    def current(self):
        """The generation that answers now; none where nothing was added."""
        try:
            with open(self.path("current"), encoding="ascii") as file:
                text = file.read()
        except FileNotFoundError:
            return None
        except (OSError, UnicodeDecodeError) as error:
            raise Refusal(FAILED, f"{self.path('current')}: it cannot be read") from error
        if not CURRENT.fullmatch(text):
            raise Refusal(FAILED, f"{self.path('current')}: it does not name a set")
        return Generation(self.root, text.rstrip("\n"))

    @contextlib.contextmanager
    def reading(self):
        """The current generation, which no addition removes meanwhile."""
        if not os.path.isdir(self.root):
            raise Refusal(FAILED, f"{self.root}: there is no such archive")
        table = None
        while table is None:
            generation = self.current()
            if generation is None:
                raise Refusal(REFUSED, f"{self.root}: nothing was added to this archive")
            table = held(generation.path(".table"), fcntl.LOCK_SH)
            if table is None and generation == self.current():
                raise Refusal(FAILED, f"{generation.path('.table')}: it is missing")
        try:
            yield generation
        finally:
            os.close(table)

    @contextlib.contextmanager
    def adding(self):
        """The one addition that runs: others are refused meanwhile. What a killed one left behind is removed."""
        self.prepare()
        lock = self.lock()
        try:
            remove(self.path("adding"))
            remove(self.path("current.new"))
            os.mkdir(self.path("adding"))
            yield Addition(self, lock)
        except OSError as error:
            raise unwritten(error.filename or self.root, error) from error
        finally:
            with contextlib.suppress(OSError):
                shutil.rmtree(self.path("adding"))
            os.close(lock)

    def prepare(self):
        """Makes the folder where it is missing, for its owner alone, since mail is; one that has other files and is no
        archive is refused."""
        try:
            if os.path.isdir(self.root):
                others = set(os.listdir(self.root)).difference(OWN)
                if others and "lock" not in os.listdir(self.root):
                    raise Refusal(REFUSED, f"{self.root}: the folder is not empty, and is no archive")
            else:
                os.mkdir(self.root, 0o700)
        except OSError as error:
            raise unwritten(error.filename or self.root, error) from error

    def lock(self):
        """The lock as an open file, whose text then says who holds it."""
        try:
            file = os.open(self.path("lock"), os.O_RDWR | os.O_CREAT, 0o644)
        except OSError as error:
            raise unwritten(error.filename or self.root, error) from error
        end = time.monotonic() + PATIENCE
        while True:
            try:
                fcntl.flock(file, fcntl.LOCK_EX | fcntl.LOCK_NB)
                break
            except BlockingIOError as error:
                if time.monotonic() > end:
                    who = os.pread(file, 1000, 0).decode("utf-8", "replace").strip() or "another process"
                    os.close(file)
                    raise Refusal(BUSY, f"{self.root}: {who} adds to it; try again when that has ended") from error
            time.sleep(0.05)
        now = time.strftime("%Y-%m-%d %H:%M:%S")
        os.ftruncate(file, 0)
        os.pwrite(file, f"process {os.getpid()} of {socket.gethostname()}, since {now},\n".encode(), 0)
        return file

    def generations(self):
        """The numbers of the generations that are there, rising."""
        return sorted(int(name) for name in os.listdir(self.root) if GENERATION.fullmatch(name))


class Addition:
    """What an addition does to the folder; its lock is held meanwhile, also by the programs that it runs."""

    def __init__(self, archive, lock):
        self.archive = archive
        self.lock = lock
        self.old = archive.current()

    def path(self, name):
        """A file of the addition's own folder."""
        return os.path.join(self.archive.path("adding"), name)

    def clear(self):
        """Removes the generations that are not the current one, but those that a reader holds."""
        current = self.old and int(self.old.name.partition("/")[0])
        for number in self.archive.generations():
            table = self.archive.path(f"{number}/set.table")
            if number == current:
                continue
            # The lock is held until all is gone, so that no reader takes this generation meanwhile.
            lock = held(table, fcntl.LOCK_EX)
            try:
                if lock is not None or not os.path.exists(table):
                    remove(self.archive.path(str(number)))
            finally:
                if lock is not None:
                    os.close(lock)

    def publish(self):
        """Makes the finished generation the current one: all is on the disk before the last renaming."""
        archive = self.archive
        folder = archive.path("adding")
        for name in os.listdir(folder):
            settle(os.path.join(folder, name))
        settle(folder)
        number = max(archive.generations(), default=0) + 1
        os.rename(folder, archive.path(str(number)))
        settle(archive.root)
        with open(archive.path("current.new"), "w", encoding="ascii") as file:
            file.write(f"{number}/set\n")
        settle(archive.path("current.new"))
        os.rename(archive.path("current.new"), archive.path("current"))
        settle(archive.root)
        return Generation(archive.root, f"{number}/set")


@functools.cache
def is_archive(folder):
    """Whether a folder is an archive, of which nothing is a document."""
    return os.path.isfile(os.path.join(folder, b"lock")) and os.path.isfile(os.path.join(folder, b"current"))


def is_within_archive(path):
    """Whether a file is one of an archive, or of its generations."""
    folder = os.path.dirname(path)
    return is_archive(folder) or is_archive(os.path.dirname(folder))


def held(path, kind):
    """The open file under this name with a lock on it; none where it is gone, or locked otherwise."""
    try:
        file = os.open(path, os.O_RDONLY)
    except FileNotFoundError:
        return None
    except OSError as error:
        raise Refusal(FAILED, f"{path}: it cannot be read") from error
    try:
        fcntl.flock(file, kind | fcntl.LOCK_NB)
        if os.fstat(file).st_nlink:
            return file
    except BlockingIOError:
        pass
    os.close(file)
    return None


def settle(path):
    """Waits until a file, or the names in a folder, are on the disk."""
    file = os.open(path, os.O_RDONLY)
    try:
        os.fsync(file)
    finally:
        os.close(file)


def remove(path):
    """Removes a file or a folder, if it is there."""
    if os.path.isdir(path) and not os.path.islink(path):
        shutil.rmtree(path)
    else:
        with contextlib.suppress(FileNotFoundError):
            os.remove(path)
