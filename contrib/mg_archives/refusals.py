"""Why a program of the package ends without its result: a status, and one line of text."""

import errno

USAGE = 1
FAILED = 2
REFUSED = 3
UNNAMED = 4
LEFT_OUT = 5

FULL = {errno.ENOSPC: "the disk is full", errno.EDQUOT: "the quota of the disk is used up"}
READ = {
    errno.ENOENT: "there is no such file", errno.ENOTDIR: "there is no such file", errno.EISDIR: "it is a folder",
    errno.ELOOP: "a loop of symbolic links", errno.EACCES: "it cannot be read", errno.EPERM: "it cannot be read",
}


class Refusal(Exception):
    """The program ends with this status; the text stands on standard error behind the program's name."""

    def __init__(self, status, text):
        super().__init__(text)
        self.status = status
        self.text = text


def shown(path):
    """A path as it may stand in a line of text, the bytes that are no UTF-8 within."""
    text = path.decode("utf-8", "surrogateescape") if isinstance(path, bytes) else path
    return text.replace("\n", "\\n").replace("\t", "\\t")


def unwritten(path, error):
    """The refusal of a file that could not be written."""
    return Refusal(FAILED, f"{shown(path)}: it cannot be written: {FULL.get(error.errno, error.strerror)}")


def unread(error):
    """Why a file could not be read."""
    return READ.get(error.errno) or f"it cannot be read: {error.strerror or error}"
