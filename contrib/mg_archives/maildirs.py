"""The files of Maildirs, with their subfolders, and of MH folders: a message each."""

import os
import re

from mg_archives.refusals import REFUSED, Refusal, shown

BOXES = (b"cur", b"new")
NUMBERED = re.compile(rb"[1-9][0-9]*")


def entries_of(folder):
    with os.scandir(folder) as entries:
        return sorted(entries, key=lambda entry: entry.name)


def folders_in(entries):
    return {entry.name for entry in entries if entry.is_dir(follow_symlinks=False)}


def is_folder(entry):
    """Whether an entry is a folder or a link to one; a loop of links is none."""
    return entry.is_dir(follow_symlinks=False) or (entry.is_symlink() and os.path.isdir(entry.path))


def unique_part(name):
    """The part of a message's file name that stays when its flags change."""
    return name.partition(b":")[0]


def messages_of_maildir(folder):
    """The messages in both boxes of a Maildir, in the order of the names of their files, which begin with a time.
    Symbolic links are taken: programs that search mail make Maildirs of them."""
    found = [entry for box in BOXES for entry in entries_of(os.path.join(folder, box)) if not entry.name.startswith(b".")]
    return [entry.path for entry in sorted(found, key=lambda entry: (entry.name, entry.path)) if not is_folder(entry)]


def messages_below(folder, numbered):
    """The messages of a folder and all folders below it, and how many of these are mail folders."""
    paths, mailboxes = [], 0
    waiting = [folder]
    while waiting:
        here = waiting.pop()
        entries = entries_of(here)
        inner = folders_in(entries)
        if inner.issuperset(BOXES):
            mailboxes += 1
            paths += messages_of_maildir(here)
            inner -= {*BOXES, b"tmp"}
        elif numbered:
            names = [entry.name for entry in entries if NUMBERED.fullmatch(entry.name) and entry.is_file(follow_symlinks=False)]
            mailboxes += bool(names) or any(entry.name == b".mh_sequences" for entry in entries)
            paths += [os.path.join(here, name) for name in sorted(names, key=int)]
        waiting += [os.path.join(here, name) for name in sorted(inner, reverse=True)]
    return paths, mailboxes


def mail_files(folder):
    """The messages of a Maildir with its subfolders, of an MH folder, or of a folder of such folders. In a Maildir
    numbered files are no messages: programs keep their own files there."""
    maildir = folders_in(entries_of(folder)).issuperset(BOXES)
    paths, mailboxes = messages_below(folder, not maildir)
    if not mailboxes:
        told = "no Maildir: it has no folders cur and new, and no numbered files as in an MH folder"
        raise Refusal(REFUSED, f"{shown(folder)}: {told}")
    return paths


def renamed(path):
    """Where a message of a Maildir is whose flags changed since its name was read; none where it is gone."""
    box, name = os.path.split(path)
    folder, box = os.path.split(box)
    if box not in BOXES:
        return None
    for other in BOXES:
        try:
            names = os.listdir(os.path.join(folder, other))
        except OSError:
            continue
        for found in names:
            if unique_part(found) == unique_part(name):
                return os.path.join(folder, other, found)
    return None
