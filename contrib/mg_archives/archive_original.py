"""A document's own bytes, from the source that it was collected from.

A message is known by its Message-ID or, without one, by its text; a file by its size and time, or its bytes. So a source
that changed since gives no other bytes.
"""

from mg_archives import mboxes
from mg_archives.archive_add import state_of
from mg_archives.archive_find import record_of
from mg_archives.archive_origins import digest_of
from mg_archives.choices import Choices, Tally
from mg_archives.documents import Odd, Reader
from mg_archives.originals import read_original
from mg_archives.refusals import REFUSED, Refusal, shown
from mg_archives.sources import PIPES
from mg_archives.tables import Row


def texts_of_message(data, row):
    """What a message may have become in the collection: as it is, and decoded."""
    if row.offset:
        data = mboxes.unquoted(data)
    for raw in (True, False):
        try:
            yield Reader(Choices(raw=raw, replace=b"?"), Tally()).message(data, Row())
        except Odd:
            continue


def is_same(data, row, origin):
    """Whether these bytes are the document's, as far as the archive knows it."""
    if origin.size:
        known = (int(origin.size), int(origin.time))
        return state_of(row.path) == known or digest_of(data) == origin.digest
    return bool(row.message_id) or any(digest_of(text) == origin.digest for text in texts_of_message(data, row))


def original(archive, number):
    """The bytes of a document in its source."""
    with archive.reading() as generation:
        row, origin = record_of(generation, number)[number]
    kept = f"show {number} has it as it was added"
    if row.path.startswith(PIPES):
        raise Refusal(REFUSED, f"document {number} came from a pipe, which is gone; {kept}")
    try:
        data = read_original(row)
    except Refusal as refusal:
        raise Refusal(REFUSED, f"{refusal.text}; {kept}") from refusal
    if not is_same(data, row, origin):
        raise Refusal(REFUSED, f"{shown(row.path)}: it has changed since; {kept}")
    return data
