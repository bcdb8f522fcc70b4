"""Writes the expected outputs of the sessions anew, by a reference that is not mg.

    python3 tests/make_expected.py COMMAND..

COMMAND.. is run with a collection's file as its last word and the session as its standard input;
what it prints is stored. The suite itself needs no reference.
"""

import pathlib
import subprocess
import sys
import tempfile

from kinds import cases

EXPECTED = pathlib.Path(__file__).parent / "expected"


def main(command):
    with tempfile.TemporaryDirectory() as folder:
        for name, collection, session in cases():
            path = pathlib.Path(folder) / name
            path.write_bytes(collection)
            run = subprocess.run([*command, path], input=session, stdout=subprocess.PIPE, check=True)
            (EXPECTED / f"{name}.out").write_bytes(run.stdout)


if __name__ == "__main__":
    main(sys.argv[1:])
