"""The program mg: where it is, what it makes of files, and what it answers."""

import ctypes
import os
import re
import signal
import subprocess
import tempfile

from mg_archives.programs import find_mg
from mg_archives.progress import Progress
from mg_archives.refusals import FAILED, REFUSED, USAGE, Refusal, shown

# The statuses by which mg tells that a set would be beyond a limit.
LIMITS = {8: "4294967295 bytes", 9: "16777216 documents", 10: "4194304 distinct words"}
STORE_FAILED = 2
LEAST_ROOM = 1 << 16
LIBRARY = ctypes.CDLL(None)
PARENT_ENDS = 1
INTERVAL = 0.1
BLOCK = 1 << 20
END = re.compile(rb"= ([0-9]+)\n")


class BeyondLimit(Exception):
    """A set would have more than one may have; the text says more than what."""


def end_with_parent(parent):
    """What a child does first, so that the system ends it when this program is killed."""
    LIBRARY.prctl(PARENT_ENDS, signal.SIGKILL)
    if os.getppid() != parent:
        os._exit(1)


def room_in(folder):
    """How many bytes the disk of a folder takes still."""
    found = os.statvfs(folder)
    return found.f_bavail * found.f_frsize


def read_so_far(process):
    """How many bytes a process has read; none where the system does not tell."""
    try:
        with open(f"/proc/{process.pid}/io", encoding="ascii") as file:
            return int(file.readline().split()[1])
    except (OSError, ValueError, IndexError):
        return None


class Program:
    """mg, run in the folder of an archive, so that the names of sets are short and need no care."""

    def __init__(self, root, lock=None):
        self.path = find_mg(FAILED)
        self.root = root
        self.lock = lock

    def start(self, words, **streams):
        parent = os.getpid()
        keep = () if self.lock is None else (self.lock,)
        try:
            return subprocess.Popen(
                [self.path, *words], cwd=self.root, pass_fds=keep, preexec_fn=lambda: end_with_parent(parent), **streams
            )
        except OSError as error:
            raise Refusal(FAILED, f"{self.path}: {error.strerror}") from error

    def make(self, words, doing, whole):
        """Runs a tool that makes or checks a set, and answers what it prints. `whole` is how many bytes it reads."""
        with tempfile.TemporaryFile() as out, tempfile.TemporaryFile() as told:
            process = self.start(words, stdin=subprocess.DEVNULL, stdout=out, stderr=told)
            progress = Progress(line=lambda: f"{doing} {share(process, whole)}")
            try:
                while True:
                    try:
                        status = process.wait(INTERVAL if progress.live else None)
                        break
                    except subprocess.TimeoutExpired:
                        progress.show()
            except BaseException:
                process.kill()
                process.wait()
                raise
            finally:
                progress.clear()
            out.seek(0)
            told.seek(0)
            if status in LIMITS and words[0] in ("build", "merge"):
                raise BeyondLimit(LIMITS[status])
            if status == STORE_FAILED and room_in(self.root) < LEAST_ROOM:
                raise Refusal(FAILED, f"{shown(self.root)}: the disk is full")
            refuse_status(words[0], status, told.read())
            return out.read()

    def ask(self, tool, name, lines):
        """A session of query, phrase or wild."""
        return Session(self, tool, name, lines)

    def document(self, name, number):
        """The bytes of a document, found by printing the whole collection up to it."""
        process = self.start(["decode", name], stdin=subprocess.DEVNULL, stdout=subprocess.PIPE, stderr=subprocess.DEVNULL)
        try:
            before, pieces = number - 1, []
            while block := process.stdout.read(BLOCK):
                ends = block.count(2)
                if before > ends:
                    before -= ends
                    continue
                for _ in range(before):
                    block = block[block.index(2) + 1 :]
                before = 0
                end = block.find(2)
                pieces.append(block[: end if end >= 0 else None])
                if end >= 0:
                    return b"".join(pieces)
            return b"".join(pieces) if pieces else None
        finally:
            process.kill()
            process.stdout.close()
            process.wait()


def share(process, whole):
    """How much of its bytes a tool has read, in words."""
    count = read_so_far(process)
    return "" if count is None else f"{min(99, count * 100 // max(1, whole))} %"


def refuse_status(tool, status, told):
    """Refuses what mg did not do."""
    if status:
        said = told.decode("utf-8", "replace").strip().removeprefix("mg: ")
        raise Refusal(FAILED, f"mg {tool} ended with status {status}" + (f": {said}" if said else ""))


class Session:
    """Lines that are put to a set, and the replies one after the other."""

    def __init__(self, program, tool, name, lines):
        self.tool = tool
        self.count = 0
        self.given = tempfile.TemporaryFile()
        self.told = tempfile.TemporaryFile()
        self.given.write(b"".join(line + b"\n" for line in lines))
        self.given.seek(0)
        self.process = program.start([tool, name], stdin=self.given, stdout=subprocess.PIPE, stderr=self.told)

    def __enter__(self):
        return self

    def __exit__(self, kind, *_):
        """Ends the session; what was not read of it is of no interest."""
        self.process.stdout.close()
        if self.process.poll() is None:
            self.process.kill()
        self.process.wait()
        self.given.close()
        self.told.close()

    def line(self):
        """The next line; where there is none, mg failed."""
        line = self.process.stdout.readline()
        if not line.endswith(b"\n"):
            status = self.process.wait()
            self.told.seek(0)
            refuse_status(self.tool, status, self.told.read())
            raise Refusal(FAILED, f"mg {self.tool} ended before its last reply")
        if line.startswith(b"? "):
            raise Refusal(USAGE, f"mg {self.tool} does not take these words: {line[2:].decode('ascii', 'replace').strip()}")
        return line

    def rows(self):
        """The rows of the next reply, without their newlines; then `count` is the number at its end."""
        while True:
            line = self.line()
            if end := END.fullmatch(line):
                self.count = int(end[1])
                return
            yield line[:-1]

    def documents(self):
        """The numbers and the bytes of the documents of the next reply, in the mode that shows them."""
        for header in self.rows():
            pieces = []
            while not pieces or not pieces[-1].endswith(b"\x02\n"):
                line = self.process.stdout.readline()
                if not line:
                    raise Refusal(FAILED, f"mg {self.tool} ended within a document")
                pieces.append(line)
            yield int(header.split()[1]), b"".join(pieces)[:-2]


def beyond(what, error, advice):
    """The refusal of an addition that a set cannot hold."""
    return Refusal(REFUSED, f"{what} would have more than {error}, which one set cannot have; {advice}")
