"""Tables: what each document of a collection is, a line a document and columns with tabs between them."""

import dataclasses
import re

from mg_archives.refusals import FAILED, REFUSED, Refusal

NUMBER = re.compile(rb"[1-9][0-9]*")


@dataclasses.dataclass(slots=True)
class Row:
    """A line of a table. Path, offset and length tell where the source has the document's own bytes; the path is `-`
    for standard input, and of a compressed source the offset counts the bytes that it holds. The rest is empty for
    documents that are no mail."""

    number: int = 0
    path: bytes = b""
    offset: int = 0
    length: int = 0
    message_id: str = ""
    date: str = ""
    sender: str = ""
    subject: str = ""

    def line(self):
        """The row as a line of its table."""
        fields = "\t".join((self.message_id, self.date, self.sender, self.subject))
        text = fields.encode("utf-8", "surrogateescape")
        return b"%d\t%s\t%d\t%d\t%s\n" % (self.number, self.path, self.offset, self.length, text)


def read_row(line):
    """The row of a line; a ValueError where the line is none."""
    number, path, offset, length, *fields = line.rstrip(b"\n").split(b"\t")
    texts = [field.decode("utf-8", "surrogateescape") for field in fields]
    if len(texts) != 4:
        raise ValueError("a row has eight columns")
    return Row(int(number), path, int(offset), int(length), *texts)


def read_lines(path):
    """The lines of a table, as bytes, which must be numbered 1, 2, 3 .. ."""
    shown = path.decode("utf-8", "surrogateescape") if isinstance(path, bytes) else path
    try:
        with open(path, "rb") as file:
            for place, line in enumerate(file, 1):
                number = line.partition(b"\t")[0].rstrip(b"\n")
                if not NUMBER.fullmatch(number) or int(number) != place:
                    raise Refusal(REFUSED, f"{shown}:{place}: no row {place} of a table")
                yield line
    except OSError as error:
        raise Refusal(FAILED, f"{shown}: it cannot be read") from error


def read_table(path):
    """The rows of a table, one by one; a table whose numbers are not 1, 2, 3 .. is refused."""
    for line in read_lines(path):
        try:
            yield read_row(line)
        except ValueError as error:
            shown = path.decode("utf-8", "surrogateescape") if isinstance(path, bytes) else path
            raise Refusal(REFUSED, f"{shown}: no table of mg-collect: {error}") from error
