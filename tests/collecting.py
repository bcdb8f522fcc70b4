"""Runs of mg-collect in a folder of its own, for the modules of tests that try it."""

import os
import resource
import signal
import subprocess

from transcripts import ROOT

SCRIPT = ROOT / "contrib" / "mg-collect"


def row(number, path, offset, length, *fields):
    """A line of a table; what is not told of a message is empty."""
    texts = [*fields, *[b""] * (4 - len(fields))]
    return b"%d\t%s\t%d\t%d\t%s\n" % (number, path, offset, length, b"\t".join(texts))


class Collect:
    """A folder with files, and what the program makes of them."""

    def __init__(self, suite, folder):
        self.suite = suite
        self.folder = folder

    def run(self, *words, given=b"", most=resource.RLIM_INFINITY, command=()):
        """The program's status, output and error output, where a file may have at most so many bytes. Another command
        may run it."""

        def narrow():
            signal.signal(signal.SIGXFSZ, signal.SIG_IGN)
            resource.setrlimit(resource.RLIMIT_FSIZE, (most, most))

        run = subprocess.run(
            [*command, SCRIPT, *words], cwd=self.folder, input=given, capture_output=True, preexec_fn=narrow, timeout=300
        )
        return run.returncode, run.stdout, run.stderr

    def path(self, name):
        return os.path.join(os.fsencode(self.folder), os.fsencode(name))

    def file(self, name, content=b""):
        path = self.path(name)
        os.makedirs(os.path.dirname(path), exist_ok=True)
        with open(path, "wb") as file:
            file.write(content)

    def content(self, name):
        with open(self.path(name), "rb") as file:
            return file.read()

    def check(self, name, got, wanted):
        self.suite.check(f"mg-collect: {name}", got, wanted)

    def made(self, name, documents, rows, printed, *words, given=b"", status=0, told=b""):
        """The words make this collection and this table, and leave nothing else."""
        before = set(os.listdir(self.folder))
        self.check(name, self.run(*words, given=given), (status, printed, told))
        for ending, wanted in [("", b"".join(document + b"\x02" for document in documents)), (".table", rows)]:
            self.check(f"{name}: new{ending}", self.content("new" + ending), wanted)
            os.remove(self.path("new" + ending))
        self.check(f"{name}: leaves no other file", set(os.listdir(self.folder)), before)

    def refused(self, name, status, told, *words, given=b""):
        """The words are refused, and what was there stays."""
        self.file("new", b"old")
        before = set(os.listdir(self.folder))
        self.check(name, self.run(*words, given=given), (status, b"", told))
        self.check(f"{name}: the old collection", self.content("new"), b"old")
        self.check(f"{name}: leaves no file", set(os.listdir(self.folder)), before)
        os.remove(self.path("new"))
