"""Damages of sets on the disk: whatever bytes stand in a part, each tool ends soon, with a true status.

Each random damage is made to one part of a sound set; then `decode`, `query`, `phrase`, `wild`, `check`, `migrate` and
`merge` are run over it. None may end by a signal, take longer than 20 seconds, or end with another status than
0, 5 or 6 and the line of that status (a merge also with 8, by what a damaged head tells); none may take
32 megabytes more than over the sound set, and a merge the pool that the damaged head tells beside it.
The seed is printed, and `--seed N` repeats a run.
"""

import json
import pathlib
import re
import subprocess
import sys
import zipfile

from files import BUDGET, K
from kinds import Draws, capitals, mail, small_alphabet
from parts import ENDINGS, build
from standing import write_parts
from texts import Collection

DAMAGES = 300
SECONDS = 20
MORE = 32 << 20
# The occurrences to a run that a head may tell.
CAPS = (341, 89_478_485)
KEPT = pathlib.Path(__file__).parent / "data" / "version_1.zip"
ASKED = (
    b"a\n!a\ncat & !dog | the\n.set mode text\n.set maxdocs 3\nthe\n.set query ranked\na cat the\n"
    b".set mode docnums\n.set maxdocs all\nthe a\nt*\n*\n"
)
# The fault lines of the statuses 0, 5 and 6.
LINES = {
    0: rb"",
    5: rb"mg: nothing is built under this name\n",
    6: rb"mg: damaged: part [a-z]+ at [0-9]+: found [0-9]+, wanted [0-9]+ to [0-9]+\n",
}
# A merge adds up what the heads of both sets tell.
MERGE_LINES = LINES | {8: rb"mg: the collection has [0-9]+ bytes, more than 4294967295\n"}
TOOLS = [["decode", "set"], ["query", "set"], ["phrase", "set"], ["wild", "set"], ["migrate", "set", "new"], ["merge", "set", "set", "new"], ["check", "set"]]


def kept_parts():
    """The parts of the set of version 1 that is kept as a file: lists of several blocks, parts of several pages."""
    with zipfile.ZipFile(KEPT) as archive:
        return {ending: archive.read(f"old.{ending}") for ending in ENDINGS}


def sound_sets():
    made = [(K, 1), (K, 2), (b"a a a a ", 1), (b"a a a a ", 2), (mail(Draws(1)), 2), (capitals(Draws(2)), 1), (small_alphabet(Draws(3)), 2)]
    return [build(Collection(collection), BUDGET, version) for collection, version in made] + [kept_parts()]


def changed(draws, content, at, count):
    """The bytes with others from a place on."""
    return content[:at] + bytes(draws.below(256) for _ in range(count)) + content[at + count :]


def damaged(draws, content):
    """What was done to some bytes, and what came of it; None for a file that is gone."""
    size = len(content)
    kind = draws.below(8)
    at = draws.below(size) if size else 0
    if kind == 0 or size == 0:
        count = 1 + draws.below(5000)
        return f"{count} bytes are added", content + bytes(draws.below(256) for _ in range(count))
    if kind == 1:
        return f"cut to {at} bytes", content[:at]
    if kind == 2:
        return f"byte {at} is its complement", content[:at] + bytes([255 - content[at]]) + content[at + 1 :]
    if kind == 3:
        return f"byte {at} is another", changed(draws, content, at, 1)
    if kind == 4:
        field = draws.one_of([b"\xff\xff\xff\xff", b"\0\0\0\0", b"\0\xff\xff\xff", b"\0\x10\0\0", b"\x7f\xff\xff\xff\xff\xff\xff\xff"])
        return f"{field.hex()} from byte {at} on", (content[:at] + field + content[at + len(field) :])[:size]
    if kind == 5:
        return f"byte {at} is gone", content[:at] + content[at + 1 :]
    if kind == 6:
        return f"bytes from {at} on are others", changed(draws, content, at, min(64, size - at))
    return "the file is gone", None


def pool_of(head):
    """The bytes of the pool in which a merge of a set with this head sorts: 12 for each occurrence of a run."""
    cap = int.from_bytes(head[24:28], "big")
    return 12 * cap if CAPS[0] <= cap <= CAPS[1] else 0


class Measured:
    """Runs of the program by a small process that tells their peaks; what they print goes to a file."""

    def __init__(self, suite, printed="printed"):
        self.suite, self.printed = suite, printed
        script = str(pathlib.Path(__file__).parent / "measured.py")
        self.runner = subprocess.Popen([sys.executable, "-S", "-E", script], stdin=subprocess.PIPE, stdout=subprocess.PIPE)

    def run(self, words):
        """The status, the error output and the peak."""
        order = {
            "words": [str(self.suite.program), *words], "folder": str(self.suite.folder), "stdin": "asked",
            "stdout": self.printed, "stderr": "told", "seconds": SECONDS,
        }
        self.runner.stdin.write(json.dumps(order).encode() + b"\n")
        self.runner.stdin.flush()
        status, peak = json.loads(self.runner.stdout.readline())
        return status, (self.suite.folder / "told").read_bytes(), peak

    def end(self):
        self.runner.stdin.close()
        self.runner.wait()


def random_damages(suite):
    """Three hundred damages, each tool over each."""
    print(f"damages: seed {suite.seed}")
    draws = Draws(suite.seed)
    suite.file("asked", ASKED)
    measured = Measured(suite)
    sets = sound_sets()
    sound = []
    for parts in sets:
        write_parts(suite.folder / "set", parts)
        ends = [measured.run(words) for words in TOOLS]
        suite.check("a sound set", [(status, line) for status, line, _ in ends], [(0, b"")] * len(TOOLS))
        sound.append([peak for _, _, peak in ends])
    worst = 0
    for number in range(DAMAGES):
        chosen = draws.below(len(sets))
        write_parts(suite.folder / "set", sets[chosen])
        ending = draws.one_of([*ENDINGS[:11], "head", "head", "words"])
        what, content = damaged(draws, sets[chosen][ending])
        file = suite.folder / f"set.{ending}"
        if content is None:
            file.unlink()
        else:
            file.write_bytes(content)
        for words, peak_before in zip(TOOLS, sound[chosen]):
            status, line, peak = measured.run(words)
            lines = MERGE_LINES if words[0] == "merge" else LINES
            fair = status in lines and re.fullmatch(lines[status], line) is not None
            name = f"damage {number} of seed {suite.seed}: set {chosen}, {ending}: {what}: {words[0]}"
            suite.check(name, fair or (status, line), True)
            pool = pool_of(content or b"") if ending == "head" and words[0] == "merge" else 0
            worst = max(worst, peak - peak_before - pool)
            suite.check(f"{name}: memory", peak <= peak_before + pool + MORE or peak, True)
    measured.end()
    print(f"damages: at most {worst // 1024} kilobytes more than over the sound set, beside the pool")
    for name in ("set", "new"):
        for ending in ENDINGS:
            (suite.folder / f"{name}.{ending}").unlink(missing_ok=True)


def fair_end(suite, words):
    """Whether a tool ends with status 0, 5 or 6 and the line of that status."""
    status, _, line = suite.run(words, ASKED)
    return status in LINES and re.fullmatch(LINES[status], line) is not None


def each_byte(suite):
    """Each byte of a small set of either version, changed or the end of its part: `decode` and `query` end truly."""
    for version in (1, 2):
        parts = build(Collection(b"a a a a "), BUDGET, version)
        for ending in ENDINGS[:11]:
            sound = parts[ending]
            unfair = []
            for at in range(len(sound)):
                for other in (sound[:at], sound[:at] + bytes([255 - sound[at]]) + sound[at + 1 :]):
                    write_parts(suite.folder / "set", parts | {ending: other})
                    unfair += [(at, words[0]) for words in TOOLS[:2] if not fair_end(suite, words)]
            suite.check(f"each byte of {ending} of version {version}", unfair, [])
    for ending in ENDINGS:
        (suite.folder / f"set.{ending}").unlink(missing_ok=True)


PARTS = [random_damages, each_byte]
