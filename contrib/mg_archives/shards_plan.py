"""How a collection is cut into shards, and the steps that make an archive of them.

A shard is a range of the collection's bytes that ends where a document ends. The shards are merged in a binary tree:
a step is a shard, or the merge of the steps of both halves of its shards.
"""

import dataclasses
import json
import os

from mg_archives.refusals import Refusal

CLOSE = b"\x02"
PAGE = 1 << 16
MOST_BYTES = 2**32 - 1

CHANGED = 11
MISSING = 7
STORE_FAILED = 2


def next_end(file, start):
    """The place behind the first closing byte from here on, or None."""
    file.seek(start)
    while page := file.read(PAGE):
        at = page.find(CLOSE)
        if at >= 0:
            return start + at + 1
        start += len(page)
    return None


def last_end(file, low, high):
    """The place behind the last closing byte between two places, or None."""
    while high > low:
        start = max(low, high - PAGE)
        file.seek(start)
        at = file.read(high - start).rfind(CLOSE)
        if at >= 0:
            return start + at + 1
        high = start
    return None


def cuts_by_count(file, size, count):
    """Where shards of about as many bytes each begin, and the collection's end: at most `count` shards, none of them empty
    unless the collection is. An open last document belongs to the last shard."""
    cuts = [0]
    for number in range(1, count):
        about = size * number // count
        if about <= cuts[-1]:
            continue
        end = next_end(file, about - 1)
        if end is None or end >= size:
            break
        cuts.append(end)
    return [*cuts, size]


def cuts_by_bytes(file, size, most):
    """Where shards of at most so many bytes begin, and the collection's end. A longer document is a shard of its own."""
    cuts = [0]
    while size - cuts[-1] > most:
        start = cuts[-1]
        end = last_end(file, start, start + most) or next_end(file, start + most)
        if end is None or end >= size:
            break
        cuts.append(end)
    return [*cuts, size]


def middle_end(file, start, end):
    """An end of a document near the middle of a range, strictly inside it, or None."""
    about = (start + end) // 2
    behind = next_end(file, max(start, about - 1))
    if behind is not None and behind < end:
        return behind
    before = last_end(file, start, about)
    return before if before is not None and before > start else None


@dataclasses.dataclass(frozen=True, order=True)
class Step:
    """The shards from one number to another, as one step makes a list of sets of them."""

    first: int
    last: int

    @property
    def name(self):
        return str(self.first) if self.first == self.last else f"{self.first}-{self.last}"

    @property
    def is_shard(self):
        return self.first == self.last

    @property
    def halves(self):
        middle = (self.first + self.last) // 2
        return [] if self.is_shard else [Step(self.first, middle), Step(middle + 1, self.last)]

    def __str__(self):
        return f"shard {self.name}" if self.is_shard else f"merge {self.name}"


@dataclasses.dataclass(frozen=True)
class Plan:
    """Which collection is cut, as it was when it was cut, and where. `asked` are the words that decided it."""

    collection: str
    size: int
    changed: int
    asked: str
    budget: int | None
    cuts: list[int]

    @property
    def shards(self):
        return len(self.cuts) - 1

    @property
    def root(self):
        return Step(1, self.shards)

    def range_of(self, number):
        return self.cuts[number - 1], self.cuts[number]

    def step_named(self, name):
        """The step of this name in the tree, or None."""
        first, _, last = name.partition("-")
        if not first.isdecimal() or not (last or first).isdecimal():
            return None
        wanted, step = Step(int(first), int(last or first)), self.root
        while step != wanted:
            inside = [half for half in step.halves if half.first <= wanted.first and wanted.last <= half.last]
            if not inside:
                return None
            step = inside[0]
        return step

    def open_collection(self):
        """The collection, which must be as it was when it was cut."""
        file = opened(self.collection)
        state = os.fstat(file.fileno())
        for what, now, then in [("size", state.st_size, self.size), ("time", state.st_mtime_ns, self.changed)]:
            if now != then:
                file.close()
                raise Refusal(CHANGED, f"{self.collection}: the collection changed after it was cut: {what} was {then}, then {now}")
        return file


def opened(collection):
    """A collection's file."""
    try:
        return open(collection, "rb")
    except FileNotFoundError as error:
        raise Refusal(MISSING, f"{collection}: there is no such collection") from error
    except OSError as error:
        raise Refusal(STORE_FAILED, f"{collection}: {error.strerror}") from error


def made_plan(collection, shards, most, budget):
    """The plan of a collection by a count of shards, or by the most bytes of one."""
    with opened(collection) as file:
        state = os.fstat(file.fileno())
        if not os.path.isfile(collection):
            raise Refusal(STORE_FAILED, f"{collection}: it is no file")
        cuts = cuts_by_count(file, state.st_size, shards) if shards else cuts_by_bytes(file, state.st_size, most)
    asked = asked_words(shards, most, budget)
    return Plan(os.path.realpath(collection), state.st_size, state.st_mtime_ns, asked, budget, cuts)


def asked_words(shards, most, budget):
    """The words of a command line that decide what an archive becomes."""
    return (f"--shards {shards}" if shards else f"--bytes {most}") + (f" --budget {budget}" if budget else "")


def plan_text(plan):
    return json.dumps(dataclasses.asdict(plan)) + "\n"


def plan_of_text(text):
    return Plan(**json.loads(text))
