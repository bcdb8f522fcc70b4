"""What an archive has: documents, bytes, the size of its set, and its last addition."""

from mg_archives.archive_find import documents_in
from mg_archives.refusals import FAILED, Refusal


def bytes_in(generation):
    """How many bytes the documents of a generation have, by the head of its set."""
    with open(generation.path(".head"), "rb") as file:
        return int.from_bytes(file.read(40)[32:], "big")


def status_lines(archive):
    """A line for each thing that is told."""
    with archive.reading() as generation:
        documents, size = documents_in(generation), bytes_in(generation)
        with open(generation.path(".added"), encoding="utf-8", errors="surrogateescape") as file:
            additions = file.read().splitlines()
        if not additions:
            raise Refusal(FAILED, f"{generation.path('.added')}: it has no line")
        when, count, _, kind, names = additions[-1].split("\t")
        taken = generation.size()
        return [
            f"documents {documents}", f"bytes {size}", f"set {taken} ({taken * 100 // max(1, size)} %)",
            f"current {generation.path('')}", f"additions {len(additions)}", f"last {when} {count} documents, {kind} {names}",
        ]
