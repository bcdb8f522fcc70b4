"""HTML as its text."""

import html.parser
import re

from mg_archives.texts import decoded, marked

# What they hold is no text for a reader.
UNREAD = ("script", "style", "template")
BLOCKS = (
    "address article aside blockquote body br caption center dd details dialog dir div dl dt fieldset figcaption figure footer form "
    "h1 h2 h3 h4 h5 h6 head header hr html legend li main menu nav ol optgroup option p section summary table tbody tfoot thead "
    "title tr ul"
).split()
CELLS = ("td", "th", "button", "input", "select", "textarea", "img")
# The library's parser is slow with tags: it gets a sign for the end of a line and a blank for the end of a cell, and no
# tags but those between which text is read otherwise. What is no tag of this form it gets as it is.
END = "\x1f"
TAG = re.compile(r"""<(/?[a-zA-Z][\w:-]*)(?=[\s/>])(?:[^<>=]|=\s*(?:"[^"]*"|'[^']*'|))*>""")
TAGS = {
    **{slash + name: END for name in BLOCKS for slash in ("", "/")}, **{slash + name: " " for name in CELLS for slash in ("", "/")},
    **{slash + name: f"<{slash}{name}>" for name in (*UNREAD, "pre") for slash in ("", "/")},
}
SKIPPED = re.compile(r"<!--|<(script|style|template)\b[^<>]*>", re.I)
SKIPPED_END = {None: re.compile("-->"), **{name: re.compile(rf"</{name}\s*>", re.I) for name in UNREAD}}
BLANKS = re.compile(r"[ \t\r\n\f]+")
LINES = re.compile(r" ?\n[ \n]*")
DECLARATION = re.compile(r"<!\[(?!CDATA\[)[^<>]*>")
META = re.compile(rb"""<meta\b[^>]*?\bcharset\s*=\s*["']?\s*([-\w:.]+)""", re.I)
BEGINNING = re.compile(rb"\s*(?:<\?xml[^>]*>\s*)?(?:<!--.*?-->\s*)*<(?:!doctype\s+html|html|head|body)\b", re.I | re.S)
# How far into a page its kind and its charset are looked for.
FRONT = 4096


class Reader(html.parser.HTMLParser):
    """Gathers a page's text in `pieces`."""

    def __init__(self):
        super().__init__(convert_charrefs=True)
        self.pieces = []
        self.unread = None
        self.preformatted = 0

    def updatepos(self, i, j):
        """Lines are not counted."""
        return j

    def handle_starttag(self, tag, attrs):
        if tag in UNREAD:
            self.unread = self.unread or tag
        elif tag == "pre":
            self.pieces.append(END)
            self.preformatted += 1
        elif TAGS.get(tag):
            self.pieces.append(TAGS[tag])

    def handle_startendtag(self, tag, attrs):
        if tag not in UNREAD:
            self.handle_starttag(tag, attrs)

    def handle_endtag(self, tag):
        if tag == self.unread:
            self.unread = None
        elif tag == "pre":
            self.pieces.append(END)
            self.preformatted = max(0, self.preformatted - 1)
        elif tag not in UNREAD:
            self.pieces.append(TAGS.get(tag, ""))

    def handle_data(self, data):
        if not self.unread:
            self.pieces.append(data if self.preformatted else BLANKS.sub(" ", data))


def without_skipped(page):
    """A page without its comments, scripts and styles, and without the declarations that some programs write for
    themselves. What does not end stays."""
    pieces, place = [], 0
    while (start := SKIPPED.search(page, place)) and (end := SKIPPED_END[start[1] and start[1].lower()].search(page, start.end())):
        pieces.append(page[place : start.start()])
        place = end.end()
    pieces.append(page[place:])
    return DECLARATION.sub("", "".join(pieces))


def text_of(page):
    """The text of a page: a line for each block, and none of scripts and styles."""
    reader = Reader()
    reader.feed(TAG.sub(lambda tag: TAGS.get(tag[1].lower(), ""), without_skipped(page)))
    reader.close()
    text = LINES.sub("\n", "".join(reader.pieces).replace(END, "\n")).strip(" \n")
    return text + "\n" if text else ""


def page_of(data, charset=None):
    """The page that bytes stand for, and whether they are text in its charset: the one that is told, or its own."""
    page = marked(data)
    if page is not None:
        return page, True
    if not charset:
        told = META.search(data[:FRONT])
        charset = told[1].decode("ascii", "replace") if told else None
    return decoded(data, charset)


def is_hypertext(data):
    """Whether bytes are a page by their beginning."""
    return bool(BEGINNING.match(data[:FRONT]))
