"""Writes `data/version_1.zip` anew: a set of version 1 that another implementation made, and what is asked of it.

    python3 tests/make_version_1.py

The program makes no such set, so one is kept as files: the parts under `old`, the collection, the
lines of a session, and the replies that the reference gives over the collection.
"""

import pathlib
import sys
import zipfile

TESTS = pathlib.Path(__file__).parent
sys.path.insert(0, str(TESTS / "reference"))

from kinds import CLOSE, Draws, session
from parts import build
from sessions import session as replies
from texts import Collection

ARCHIVE = TESTS / "data" / "version_1.zip"
DOCUMENTS = 3000
BUDGET = 4096
# A file of an archive has a time; the same one gives the same bytes at each run.
WHEN = (1999, 1, 1, 0, 0, 0)


def notes(draws):
    """Short notes over six hundred words, some of them far more frequent than others."""
    words = [bytes(draws.one_of(b"aeiouklmnprst") for _ in range(2 + draws.below(6))) for _ in range(600)]
    return b"".join(
        b" ".join(words[draws.below(1 + draws.below(600))] for _ in range(1 + draws.below(9))).capitalize() + b".\n" + CLOSE
        for _ in range(DOCUMENTS)
    )


def main():
    draws = Draws(1994)
    data = notes(draws)
    asked = session(draws, data, 60)
    collection = Collection(data)
    files = {f"old.{ending}": content for ending, content in build(collection, BUDGET, 1).items()}
    files |= {"collection": data, "asked": asked, "replies": replies(collection, asked)}
    with zipfile.ZipFile(ARCHIVE, "w", zipfile.ZIP_DEFLATED, compresslevel=9) as archive:
        for name, content in files.items():
            archive.writestr(zipfile.ZipInfo(name, WHEN), content, zipfile.ZIP_DEFLATED, 9)


if __name__ == "__main__":
    main()
