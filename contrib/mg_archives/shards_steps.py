"""One step of an archive in shards: a shard is built, or the sets of two steps are merged.

A step makes a list of sets, of which no two neighbours can be merged: mg refused it for a limit. So a step merges the last
set of its first half with the first set of its second half, or keeps both: a set that is too large beside its neighbour
is so beside a larger one too.
"""

import contextlib
import errno
import os
import shutil
import subprocess

from mg_archives.refusals import Refusal
from mg_archives.shards_archive import SetRow, head_of, sync
from mg_archives.shards_plan import CHANGED, CLOSE, MOST_BYTES, middle_end

UNREADY = 20
KILLED = 21
BLOCK = 1 << 20
# The statuses of mg for more bytes, documents or distinct pieces than a set has.
LIMITS = (8, 9, 10)


class Maker:
    """Makes the sets of an archive by runs of mg."""

    def __init__(self, archive, plan, mg):
        self.archive = archive
        self.plan = plan
        self.mg = mg

    def do(self, step):
        """Does a step, if it is not done."""
        archive = self.archive
        rows = archive.rows_of(step)
        if rows is None:
            rows = self.shard(step) if step.is_shard else self.merged_step(step)
            archive.finish(step, rows)
        for half in step.halves:
            archive.drop(half, rows)

    def shard(self, step):
        with self.plan.open_collection() as collection:
            return self.pieces(collection, self.plan.range_of(step.first), step.name)

    def pieces(self, collection, cut, name):
        """The sets of a range of the collection. A range that is refused for a limit is cut in the middle."""
        row, told = self.built(collection, cut, name)
        if row:
            return [row]
        start, end = cut
        middle = middle_end(collection, start, end)
        if middle is None:
            raise told
        first = self.pieces(collection, (start, middle), f"{name}.1")
        second = self.pieces(collection, (middle, end), f"{name}.2")
        # Both halves in one were just refused.
        return first + second if len(first) == len(second) == 1 else self.joined(first, second)

    def built(self, collection, cut, name):
        """The set of a range of the collection, or None and the refusal for a limit."""
        start, end = cut
        if end - start > MOST_BYTES:
            return None, Refusal(LIMITS[0], f"mg: the collection has {end - start} bytes, more than {MOST_BYTES}")
        budget = ["--budget", str(self.plan.budget)] if self.plan.budget else []

        def words(folder):
            copy_range(collection, start, end, os.path.join(folder, "plain"), end == self.plan.size)
            return ["build", *budget, os.path.join(folder, "plain"), os.path.join(folder, "set")]

        return self.made(name, words)

    def merged_step(self, step):
        lists = [self.archive.rows_of(half) for half in step.halves]
        for half, rows in zip(step.halves, lists):
            if rows is None:
                raise Refusal(UNREADY, f"{half} is to be done first")
        return self.joined(*lists)

    def joined(self, first, second):
        """The sets of two lists in one, the last of the first merged with the first of the second where mg can do it."""
        left, right = first[-1], second[0]
        name = f"{left.folder.partition('-')[0]}-{right.folder.rpartition('-')[2]}"

        def words(folder):
            return ["merge", self.archive.path(left.base), self.archive.path(right.base), os.path.join(folder, "set")]

        row, _ = self.made(name, words)
        return [*first[:-1], *([row] if row else [left, right]), *second[1:]]

    def made(self, name, words_in):
        """The set that mg makes by these words in a folder of its own, which then gets this name; or None and mg's refusal
        for a limit. A set that is there under its name is whole."""
        base = os.path.join(name, "set")
        if os.path.isdir(self.archive.path(name)):
            return SetRow(*head_of(self.archive.path(base)), base), None
        fresh = self.archive.path("work", f"new.{name}.{os.uname().nodename}.{os.getpid()}")
        os.mkdir(fresh)
        try:
            run = subprocess.run([self.mg, *words_in(fresh)], stdin=subprocess.DEVNULL, stdout=subprocess.PIPE, stderr=subprocess.PIPE)
            if run.returncode:
                told = refusal_of(run)
                if told.status in LIMITS:
                    return None, told
                raise told
            with contextlib.suppress(FileNotFoundError):
                os.unlink(os.path.join(fresh, "plain"))
            self.keep(fresh, name)
        finally:
            shutil.rmtree(fresh, ignore_errors=True)
        return SetRow(*head_of(self.archive.path(base)), base), None

    def keep(self, fresh, name):
        """Renames the folder of a set that is whole; where another run of the step came first, its set stays."""
        for part in os.listdir(fresh):
            sync(os.path.join(fresh, part))
        sync(fresh)
        try:
            os.rename(fresh, self.archive.path(name))
        except OSError as error:
            if error.errno not in (errno.ENOTEMPTY, errno.EEXIST):
                raise
        sync(self.archive.folder)


def refusal_of(run):
    """What mg said when it failed."""
    line = run.stderr.decode("utf-8", "surrogateescape").strip()
    if run.returncode < 0:
        return Refusal(KILLED, f"mg ended by signal {-run.returncode}")
    return Refusal(run.returncode, line or f"mg ended with status {run.returncode}")


def copy_range(collection, start, end, path, is_last):
    """Copies a range of the collection to a file, a block at a time."""
    collection.seek(start)
    left, block = end - start, CLOSE
    with open(path, "wb") as file:
        while left:
            block = collection.read(min(left, BLOCK))
            if not block:
                raise Refusal(CHANGED, f"the collection changed while it was read: it has {left} bytes fewer")
            file.write(block)
            left -= len(block)
    if not is_last and not block.endswith(CLOSE):
        raise Refusal(CHANGED, "the collection changed after it was cut: a shard does not end where a document ends")
