"""A document's own bytes in its source: where the table says, or where they are by now."""

import os

from mg_archives import maildirs, mboxes, messages
from mg_archives.refusals import FAILED, REFUSED, Refusal, shown, unread
from mg_archives.sources import BLOCK, STANDARD_INPUT, Damaged, Source, read_file, uncompressed
from mg_archives.tables import Row


def identity_of(data):
    """The Message-ID of a message."""
    row = Row()
    messages.name_row(row, messages.fields_of(data)[0])
    return row.message_id


def is_it(data, row):
    """Whether these bytes are those of the row: as many, and with its Message-ID where it has one."""
    return len(data) == row.length and (not row.message_id or identity_of(data) == row.message_id)


def read_at(path, offset, length):
    """So many bytes of a file or of what it compresses, from this place on."""
    with Source(path) as source:
        if source.compressed:
            while offset and (skipped := source.read(min(offset, BLOCK))):
                offset -= len(skipped)
        else:
            source.file.seek(offset)
        return source.read(length)


def in_maildir(row):
    """The message in a Maildir: its file has another name since its flags changed, or lies in another folder of it."""
    path = maildirs.renamed(row.path)
    if path:
        return uncompressed(read_file(path))
    folder = os.path.dirname(os.path.dirname(row.path)) or b"."
    if not row.message_id or os.path.basename(os.path.dirname(row.path)) not in maildirs.BOXES:
        return None
    for path in maildirs.messages_below(folder, False)[0]:
        data = uncompressed(read_file(path))
        if identity_of(data) == row.message_id:
            return data
    return None


def in_mbox(row):
    """The message in an mbox that was written anew since, by its Message-ID."""
    if not row.message_id:
        return None
    with Source(row.path) as source:
        for _, _, data in mboxes.Mbox(source).messages():
            if identity_of(data) == row.message_id:
                return data
    return None


def found(row):
    """The bytes of the row, looked for in the place that it tells and then near it; none where they are gone."""
    try:
        data = read_at(row.path, row.offset, row.length)
    except FileNotFoundError:
        return in_maildir(row)
    return data if is_it(data, row) else in_mbox(row)


def read_original(row):
    """The bytes of a row's document in its source."""
    if row.path == STANDARD_INPUT:
        raise Refusal(REFUSED, f"document {row.number} came from standard input, which is gone")
    try:
        data = found(row)
    except OSError as error:
        raise Refusal(FAILED, f"{shown(row.path)}: {unread(error)}") from error
    except Damaged as error:
        raise Refusal(FAILED, f"{shown(row.path)}: {error}") from error
    if data is None:
        raise Refusal(FAILED, f"{shown(row.path)}: document {row.number} is not there any more")
    return data
