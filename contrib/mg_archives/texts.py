"""Bytes as text: charsets of mail, and the signs of typography that would join words."""

import codecs
import re

# Names that mail uses for a charset, and the one of which it is a part: what is beyond the named one is found too.
WIDER = {
    "iso8859-1": "cp1252", "gb2312": "gb18030", "gbk": "gb18030", "euc_kr": "cp949", "shift_jis": "cp932", "tis-620": "cp874",
    "iso8859-9": "cp1254", "iso8859-11": "cp874",
}
# What no mail means by the name of a charset.
STRANGE = {"idna", "punycode", "unicode_escape", "raw_unicode_escape", "undefined"}
SIGNS = {
    **dict.fromkeys("‘’‚‛′‹›", "'"), **dict.fromkeys("“”„‟″«»", '"'), **dict.fromkeys("‐‑‒–−", "-"), **dict.fromkeys("—―", "--"),
    **dict.fromkeys("\u00a0\u2000\u2001\u2002\u2003\u2004\u2005\u2006\u2007\u2008\u2009\u200a\u200b\u202f\u205f\u3000", " "),
    "…": "...", "•": "*", "\u2028": "\n", "\u2029": "\n", "\u00ad": "", "\u2060": "", "\ufeff": "",
}
SIGN = re.compile("[" + "".join(SIGNS) + "]")
MARKS = [
    (codecs.BOM_UTF8, "utf-8"), (codecs.BOM_UTF32_LE, "utf-32-le"), (codecs.BOM_UTF32_BE, "utf-32-be"),
    (codecs.BOM_UTF16_LE, "utf-16-le"), (codecs.BOM_UTF16_BE, "utf-16-be"),
]


def plain_signs(text):
    """The text with quotes, dashes, ellipses and blanks of typography in their ASCII forms."""
    return text if text.isascii() else SIGN.sub(lambda sign: SIGNS[sign[0]], text)


def codec_of(charset):
    """Python's name of a charset; none where there is no such charset."""
    try:
        name = codecs.lookup(charset.partition("*")[0].strip()).name
    except (LookupError, ValueError):
        return None
    return None if name in STRANGE else WIDER.get(name, name)


def decoded(data, charset):
    """The text of bytes in a charset, and whether they are such text; without a charset UTF-8 is meant. Bytes that are
    no text are kept as they are: `encoded` gives them back."""
    if data.isascii() and (not charset or charset.lower() in ("us-ascii", "utf-8", "iso-8859-1")):
        return data.decode("ascii"), True
    codec = codec_of(charset) if charset else "utf-8"
    if codec in (None, "ascii"):
        codec = "utf-8"
    for errors in ("strict", "surrogateescape"):
        try:
            return data.decode(codec, errors), errors == "strict"
        except (LookupError, UnicodeError):
            pass
    return data.decode("ascii", "surrogateescape"), False


def encoded(text):
    """The text in UTF-8, bytes that were no text as they were."""
    try:
        return text.encode("utf-8", "surrogateescape")
    except UnicodeEncodeError:
        return text.encode("utf-8", "replace")


def marked(data):
    """The text of bytes that begin with a byte order mark; none where there is no mark or they are no such text."""
    for mark, charset in MARKS:
        if data.startswith(mark):
            try:
                return data[len(mark) :].decode(charset)
            except UnicodeDecodeError:
                return None
    return None
