"""What a user chose for a collection, and what is counted while it is made."""

import dataclasses


@dataclasses.dataclass(slots=True)
class Choices:
    """`raw` keeps mail and compressed files as they are. `replace` is the byte that each control-B and null byte becomes.
    `skip` says that odd documents are meant to be left out, names that are not there among them. `filter` is a command
    of the shell that each file goes through. `text` takes hypertext as its text and UTF-16 as UTF-8."""

    raw: bool = False
    replace: bytes | None = None
    skip: bool = False
    filter: str | None = None
    text: bool = False


@dataclasses.dataclass(slots=True)
class Tally:
    """`odd` has the documents that were left out, each a name and a reason. `made` counts the files of sets, tables and
    collections that were passed by, `links` the symbolic links and devices, and `replaced` bytes."""

    documents: int = 0
    bytes: int = 0
    replaced: int = 0
    undecoded: int = 0
    made: int = 0
    links: int = 0
    odd: list[tuple[bytes, str]] = dataclasses.field(default_factory=list)
