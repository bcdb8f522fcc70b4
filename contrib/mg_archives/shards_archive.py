"""The folder of an archive in shards: its plan, what is done of it, and the list of its sets.

    plan            which collection is cut, and where
    sets            the list of the sets, written last
    lock            a lock on it is held while steps are done
    1-4/set.head .. a set of the shards 1 to 4, each in a folder of its own
    work/done/3     the sets of a step that is done
    work/failed/3   why a step failed
    work/new.3 ..   what a step is about to make; renamed when it is whole

Whatever is there under its own name is whole: files and folders are made under another one and renamed.
"""

import contextlib
import errno
import fcntl
import os
import re
import shutil
import typing

from mg_archives.refusals import Refusal
from mg_archives.shards_plan import plan_of_text, plan_text

UNBUILT = 5
DAMAGED = 6
BUSY = 20
STORE_FAILED = 2
# What a file system answers that has no locks.
LOCKLESS = (errno.ENOLCK, errno.ENOSYS, errno.EOPNOTSUPP)
# The names of the folders of sets: a shard, a piece of one, or from one of these to another.
SET_FOLDER = re.compile(r"\d+(\.\d+)*(-\d+(\.\d+)*)?")


class SetRow(typing.NamedTuple):
    """A set of an archive: its documents, the bytes of these documents, and its base name in the archive's folder."""

    documents: int
    size: int
    base: str

    @property
    def folder(self):
        return os.path.dirname(self.base)


def head_of(base):
    """How many documents the set has, and how many bytes they have, as its head tells."""
    try:
        with open(base + ".head", "rb") as file:
            head = file.read(81)
    except FileNotFoundError as error:
        raise Refusal(UNBUILT, f"{base}: nothing is built under this name") from error
    except OSError as error:
        raise Refusal(STORE_FAILED, f"{base}.head: {error.strerror}") from error
    size = {(b"MGROWv1\n", 64): 4, (b"MGROWv2\n", 80): 8}.get((head[:8], len(head)))
    if size is None:
        raise Refusal(DAMAGED, f"{base}.head: it is no head of a set")
    return int.from_bytes(head[8:12], "big"), int.from_bytes(head[32 : 32 + size], "big")


def sync(path):
    """Has the file system keep what was written to a file or a folder."""
    file = os.open(path, os.O_RDONLY)
    try:
        os.fsync(file)
    finally:
        os.close(file)


class Archive:
    """The folder of an archive."""

    def __init__(self, folder):
        # An absolute name is none that mg takes for an option.
        self.folder = os.path.abspath(folder)

    def path(self, *names):
        return os.path.join(self.folder, *names)

    def write(self, text, *names):
        """Puts a text in a file, in place of what stood there."""
        path = self.path(*names)
        fresh = f"{path}.{os.uname().nodename}.{os.getpid()}"
        with open(fresh, "w", errors="surrogateescape") as file:
            file.write(text)
            file.flush()
            os.fsync(file.fileno())
        os.rename(fresh, path)
        sync(os.path.dirname(path))

    def read(self, *names):
        """The text of a file, or None where there is none."""
        try:
            with open(self.path(*names), errors="surrogateescape") as file:
                return file.read()
        except (FileNotFoundError, NotADirectoryError):
            return None

    def begin(self, plan):
        """Takes an empty folder, or none, for an archive; what was begun is gone on with where it is the same."""
        told = self.plan()
        if told is None:
            self.write(plan_text(plan), "plan")
        elif told != plan:
            raise Refusal(BUSY, f"{self.folder}: it was begun with {told.asked} of {told.collection}, as that was then; "
                          "use these words, or another folder")
        if self.read("sets") is None:
            for name in ("done", "failed", "log"):
                os.makedirs(self.path("work", name), exist_ok=True)

    def refuse_strangers(self):
        """Refuses a folder that was made for something else."""
        if not os.path.exists(self.folder) or os.path.exists(self.path("plan")):
            return
        strange = sorted(name for name in os.listdir(self.folder) if name != "lock" and not name.startswith("plan."))
        if strange:
            raise Refusal(BUSY, f"{self.folder}: it is no archive in shards, it has {strange[0]}")

    def plan(self):
        """The plan that was written, or None."""
        text = self.read("plan")
        if text is None:
            return None
        try:
            return plan_of_text(text)
        except (ValueError, TypeError) as error:
            raise Refusal(DAMAGED, f"{self.path('plan')}: it is no plan") from error

    @contextlib.contextmanager
    def lock(self, alone):
        """Holds the archive's lock: alone, refused where another holds it, or beside others. Its file is yielded, for
        programs that hold it on."""
        os.makedirs(self.folder, exist_ok=True)
        with open(self.path("lock"), "a+") as file:
            try:
                fcntl.flock(file, fcntl.LOCK_EX | fcntl.LOCK_NB if alone else fcntl.LOCK_SH)
            except BlockingIOError as error:
                raise Refusal(BUSY, f"{self.folder}: another mg-shards is at work here") from error
            except OSError as error:
                if error.errno not in LOCKLESS:
                    raise
            yield file

    @staticmethod
    def share(file):
        """Lets steps hold the lock too, which nobody has alone any more."""
        with contextlib.suppress(OSError):
            fcntl.flock(file, fcntl.LOCK_SH)

    def clean(self):
        """Takes away what steps left that were killed, or that failed. Nobody else may be at work."""
        for name in os.listdir(self.path("work")):
            if name.startswith("new."):
                shutil.rmtree(self.path("work", name))
        for name in os.listdir(self.path("work", "failed")):
            os.unlink(self.path("work", "failed", name))
        for name in os.listdir(self.folder):
            if name.startswith(("plan.", "sets.")):
                os.unlink(self.path(name))

    def rows_of(self, step):
        """The sets of a step that is done, or None."""
        text = self.read("work", "done", step.name)
        return None if text is None else [self.row(line) for line in text.splitlines()]

    @staticmethod
    def row(line):
        documents, size, base = line.split("\t")
        return SetRow(int(documents), int(size), base)

    def finish(self, step, rows):
        """A step is done, and these are its sets."""
        self.write("".join(f"{row.documents}\t{row.size}\t{row.base}\n" for row in rows), "work", "done", step.name)
        with contextlib.suppress(FileNotFoundError):
            os.unlink(self.path("work", "failed", step.name))

    def fail(self, step, refusal):
        """A step failed, and this is why."""
        self.write(f"{refusal.status} {refusal.text}\n", "work", "failed", step.name)

    def failure(self, step):
        """The status of a failed step and why it failed, or None."""
        status, _, text = (self.read("work", "failed", step.name) or "").partition(" ")
        return (int(status), text.rstrip("\n")) if text else None

    def drop(self, step, rows):
        """Takes away what a step left that was merged on, but for these sets."""
        kept = {row.folder for row in rows}
        for row in self.rows_of(step) or []:
            if row.folder not in kept:
                shutil.rmtree(self.path(row.folder), ignore_errors=True)
        with contextlib.suppress(FileNotFoundError):
            os.unlink(self.path("work", "done", step.name))

    def pending(self, step):
        """The steps that are to be done for this one, each behind those that it is made of."""
        if os.path.exists(self.path("work", "done", step.name)):
            return []
        return [*(found for half in step.halves for found in self.pending(half)), step]

    def list_sets(self, rows):
        """Writes the list of the sets, and takes away all that is no part of the archive."""
        before, lines = 0, []
        for row in rows:
            lines.append(f"{before}\t{row.documents}\t{row.size}\t{row.base}\n")
            before += row.documents
        self.write("".join(lines), "sets")
        kept = {row.folder for row in rows}
        for name in os.listdir(self.folder):
            if name == "work" or SET_FOLDER.fullmatch(name) and name not in kept:
                shutil.rmtree(self.path(name), ignore_errors=True)

    def sets(self):
        """The sets of the list, which must be what their heads tell."""
        text = self.read("sets")
        if text is None:
            raise Refusal(UNBUILT, f"{self.folder}: nothing is built under this name, or not all of it")
        rows, before = [], 0
        for place, line in enumerate(text.splitlines(), 1):
            told, _, rest = line.partition("\t")
            try:
                row = self.row(rest)
                stands = int(told) == before
            except ValueError:
                stands = False
            if not stands or head_of(self.path(row.base)) != row[:2]:
                raise Refusal(DAMAGED, f"{self.path('sets')}:{place}: the line does not fit the sets")
            rows.append(row)
            before += row.documents
        if not rows:
            raise Refusal(DAMAGED, f"{self.path('sets')}: it lists no set")
        return rows
