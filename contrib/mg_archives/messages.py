"""Mail as text: its fields, its text parts, and a line for each attachment."""

import binascii
import dataclasses
import email.errors
import email.header
import email.message
import email.parser
import email.utils
import re

from mg_archives import hypertext
from mg_archives.texts import decoded, encoded, plain_signs

# A head goes as far as its lines look like a field, the rest of one, or a line of another system's mailbox.
HEAD = re.compile(rb"(?:(?:[!-9;-~]+[ \t]*:|[ \t]|>?From )[^\n]*(?:\n|\Z))*+")
FIELD = re.compile(
    rb"^(from|to|cc|date|subject|message-id|content-type|content-transfer-encoding|content-disposition)[ \t]*:"
    rb"([^\n]*(?:\n[ \t][^\n]*)*)", re.I | re.M,
)
SHOWN = [
    (b"from", "From"), (b"to", "To"), (b"cc", "Cc"), (b"date", "Date"), (b"subject", "Subject"), (b"message-id", "Message-ID"),
]
STRUCTURE = [b"content-type", b"content-transfer-encoding", b"content-disposition"]
# An encoded word may be longer than the standard says, but not without end.
ENCODED_WORD = r"=\?[^?\s]+\?[bBqQ]\?.{0,1000}?\?="
ENCODED_WORDS = re.compile(rf"{ENCODED_WORD}(?:\s*{ENCODED_WORD})*")
# Blanks and control bytes that become one blank; a single blank is none of them.
CONTROLS = re.compile(r" *[\x00-\x1f\x7f][\x00-\x20\x7f]*|  +")
IDENTITY = re.compile(r"<[^<>]*>")
PARSER = email.parser.BytesParser()
# Most mail is text as it stands: it goes past the library's parser.
PLAIN = re.compile(rb"""\s*text/plain\s*(?:;\s*charset\s*=\s*"?([-\w.:]+)"?\s*)?(?:;\s*format\s*=\s*"?flowed"?\s*)?;?\s*""", re.I)
AS_IT_STANDS = (b"", b"7bit", b"8bit")
COMPOSED = re.compile(rb"\s*(?:multipart|message)/", re.I)


@dataclasses.dataclass(slots=True)
class Text:
    """What is read of a message: its text, and whether all of it could be decoded."""

    lines: list[str]
    whole: bool = True

    def add(self, data, charset):
        text, right = decoded(data, charset)
        self.add_text(text, right)

    def add_text(self, text, right=True):
        self.whole = self.whole and right
        if text:
            self.lines.append(text if text.endswith("\n") else text + "\n")


def fields_of(message):
    """The fields of a message that are used, by their names in small letters, and where its body begins. Of a field that
    comes twice the first counts."""
    end = HEAD.match(message).end()
    fields = {}
    for name, value in FIELD.findall(message, 0, end):
        fields.setdefault(name.lower(), value)
    for newline in (b"\n", b"\r\n"):
        if message.startswith(newline, end):
            end += len(newline)
            break
    return fields, end


def decode_words(words):
    """The text of encoded words side by side; as they are where they are none."""
    try:
        return "".join(decoded(data, charset)[0] for data, charset in email.header.decode_header(words[0]))
    except (email.errors.HeaderParseError, binascii.Error, ValueError, TypeError, AttributeError):
        return words[0]


def field_text(value):
    """A field as a line of text: folded lines joined, encoded words decoded, runs of blanks and control bytes a blank."""
    text = decoded(value, None)[0]
    if "=?" in text:
        text = ENCODED_WORDS.sub(decode_words, CONTROLS.sub(" ", text))
    return CONTROLS.sub(" ", text).strip()


def iso_date(text):
    """A date of mail in ISO form; nothing where it is none."""
    if not text:
        return ""
    try:
        return email.utils.parsedate_to_datetime(text).isoformat()
    except (ValueError, TypeError, IndexError, OverflowError, AttributeError):
        return ""


def texts_of(fields):
    """The fields that are shown, as lines of text by their names."""
    return {name: field_text(fields[name]) for name, _ in SHOWN if name in fields}


def name_row(row, fields):
    """Puts what the fields of a message tell into its row."""
    put_texts(row, texts_of(fields))


def put_texts(row, texts):
    """Puts what the fields tell, as lines of text, into the row of a message."""
    identity = texts.get(b"message-id", "")
    found = IDENTITY.search(identity)
    row.message_id = found[0] if found else identity
    row.date = iso_date(texts.get(b"date"))
    row.sender = texts.get(b"from", "")
    row.subject = texts.get(b"subject", "")


def structure_of(fields, body):
    """The body as the library's message: parsed where it has parts, and else with its payload as it is."""
    present = [(name, fields[name]) for name in STRUCTURE if name in fields]
    if COMPOSED.match(fields.get(b"content-type", b"")):
        head = b"".join(b"%s:%s\n" % field for field in present)
        return PARSER.parsebytes(head + b"\n" + body)
    message = email.message.Message()
    for name, value in present:
        message[name.decode()] = " ".join(value.decode("ascii", "replace").split())
    message.set_payload(body.decode("ascii", "surrogateescape"))
    return message


def bytes_of(part):
    """The bytes of a part, its transfer encoding undone."""
    return part.get_payload(decode=True) or b""


def charset_of(part):
    try:
        return part.get_content_charset()
    except (LookupError, UnicodeError, ValueError):
        return None


def is_attachment(part):
    kind = part.get_content_maintype()
    if kind == "message" or part.is_multipart():
        return False
    return kind not in ("text", "multipart") or part.get_content_disposition() == "attachment"


def add_attachment(part, text):
    name = part.get_filename()
    name = field_text(encoded(str(name))) if name else ""
    size = len(bytes_of(part))
    text.add_text(f"[attachment: {part.get_content_type()}, {name + ', ' if name else ''}{size} bytes]")


def add_text_part(part, text):
    data = bytes_of(part)
    if part.get_content_type() == "text/html":
        page, right = hypertext.page_of(data, charset_of(part))
        text.add_text(hypertext.text_of(page), right)
    else:
        text.add(data.replace(b"\r\n", b"\n"), charset_of(part))


def chosen_of(parts):
    """Which parts of an alternative are read: those of plain text that say anything, or else the best form, which is the
    last; all where none is a form of text."""
    plain = [part for part in parts if part.get_content_type() == "text/plain" and not is_attachment(part) and bytes_of(part).strip()]
    forms = [part for part in parts if part.get_content_maintype() == "multipart" or part.get_content_type() == "text/html"]
    return plain or forms[-1:] or parts


def add_alternative(parts, text):
    """What is read of an alternative, and what is attached to its other parts."""
    chosen = chosen_of(parts)
    for part in parts:
        if part in chosen:
            add_part(part, text)
            continue
        for inner in part.walk():
            if is_attachment(inner) or (inner.get_filename() and not inner.is_multipart()):
                add_attachment(inner, text)


def add_fields(texts, text):
    """The fields that are shown, and an empty line where there are any."""
    present = [f"{label}: {texts[name]}\n" for name, label in SHOWN if name in texts]
    text.lines += [*present, "\n"] if present else []


def add_message(part, text):
    """A message within a message: its fields, and what it holds."""
    fields = {}
    for name, value in part.raw_items():
        fields.setdefault(name.lower().encode("ascii", "replace"), encoded(value))
    add_fields(texts_of(fields), text)
    add_part(part, text)


def add_part(part, text):
    """The text of a part and of all within it."""
    kind = part.get_content_type()
    if is_attachment(part):
        add_attachment(part, text)
    elif not part.is_multipart():
        add_text_part(part, text)
    elif kind == "multipart/alternative":
        add_alternative(part.get_payload(), text)
    elif kind == "message/delivery-status":
        for block in part.get_payload():
            for name, value in block.raw_items():
                text.add_text(f"{name}: {field_text(encoded(value))}")
    elif kind.startswith("message/"):
        for message in part.get_payload():
            add_message(message, text)
    else:
        for inner in part.get_payload():
            add_part(inner, text)


def plain_charset(fields):
    """Whether the body is plain text as it stands, and its charset if one is told."""
    if fields.get(b"content-transfer-encoding", b"").strip().lower() not in AS_IT_STANDS or b"content-disposition" in fields:
        return False, None
    kind = PLAIN.fullmatch(fields.get(b"content-type", b"text/plain"))
    return bool(kind), kind[1].decode() if kind and kind[1] else None


def text_of(message, fields, texts, start):
    """A message as text, and whether all of it could be decoded."""
    text = Text([])
    add_fields(texts, text)
    body = message[start:]
    plain, charset = plain_charset(fields)
    if plain:
        text.add(body.replace(b"\r\n", b"\n"), charset)
    else:
        add_part(structure_of(fields, body), text)
    return encoded(plain_signs("".join(text.lines))), text.whole
