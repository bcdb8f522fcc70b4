"""Wrong bodies: each can be applied, each is named by docs/WRONG-BODIES.md, and what that page names exists."""

import pathlib
import re
import shutil
import subprocess
import sys
import tempfile

ROOT = pathlib.Path(__file__).resolve().parent.parent
sys.path.append(str(ROOT / "tools"))

from edits import place_of, read_edit
from refusals import not_judged, refused_at
from wrong_bodies_page import GATE, LEFT_OUT, crates_of, edits_of, faults, named_edits

# The crates that are dearest to prove, of which the gate tries no edit.
DEAREST = ("mg_session", "mg_check", "mg_check_text", "mg_check_index", "mg_check_parts", "mg_make", "mg_merge", "mg_runs", "mg_post", "mg_args", "mg_top")


def all_edits():
    """Every edit of the repository."""
    return [path for crate in crates_of(ROOT) for path in edits_of(ROOT, crate)]


def edits_apply(suite):
    """Every edit can be applied, and the names of a crate's edits differ."""
    edits = all_edits()
    suite.check("there are wrong bodies", len(edits) > 200, True)
    read = {str(edit.relative_to(ROOT)): read_edit(edit, edit.parent.parent) for edit in edits}
    suite.check("edits that cannot be applied", {name: why for name, (_, why) in read.items() if why}, {})
    suite.check("edits that cost a whole proof", [name for name, (it, why) in read.items() if not why and not it.places], [])
    names = [(edit.parent.parent, edit.name) for edit in edits]
    suite.check("no crate has two edits of a name", len(set(names)), len(names))
    others = [path for path in (ROOT / "crates").glob(f"*/{LEFT_OUT}/*") if path.suffix != ".edit"]
    suite.check("wrong bodies are edits", others, [])
    dear = [path.name for crate in DEAREST for path in edits_of(ROOT, crate, (GATE,))]
    suite.check("the gate tries no edit of the dearest crates", dear, [])


def edits_are_named(suite):
    """The page's list of edits is that of the folders."""
    there = {(edit.parent.parent.name, edit.parent.name, edit.stem) for edit in all_edits()}
    suite.check("edits that the page lacks (tools/wrong_bodies.py --page)", sorted(there - named_edits()), [])
    suite.check("edits that the page alone has (tools/wrong_bodies.py --page)", sorted(named_edits() - there), [])


def contract_of(crate, function):
    """The clauses of the functions of this name, a trait's among them: their names, and an empty one for a clause that has none."""
    found = []
    # A store or a sink of a crate promises what its trait says, and that stands in mg_dev.
    for path in [*(ROOT / "crates" / crate / "src").rglob("*.rt"), *(ROOT / "crates" / "mg_dev" / "src").rglob("*.rt")]:
        for head in re.findall(rf"\bfn {function}\b(?:<.*?>)?\(.*?(?:\n *\{{\n|\}};\n)", path.read_text(), re.S):
            found.append(re.findall(r"^\s*(?:ensures|requires) ?(\w*) ?\{", head, re.M))
    return found


def is_test(crate, name):
    """Whether the crate has a test of this name."""
    texts = [path.read_text() for path in (ROOT / "crates" / crate / "src").rglob("*.rt")]
    return any(re.search(rf"#\[test\]\nfn {name}\(", text) for text in texts)


def is_promised(crate, refused_by):
    """Whether a function of the crate has the clause that is told to refuse a fault."""
    function, _, clause = refused_by.replace("`", "").partition(": ")
    return any(clause in clauses for clauses in contract_of(crate, function))


def faults_are_refused(suite):
    """Each fault has its edits or its tests, and the clause that is told stands in the function's contract."""
    there = {(edit.parent.parent.name, edit.stem) for edit in all_edits()}
    for it in faults(ROOT):
        suite.check(f"{it.fault}: has an edit or a test", bool(it.edits) != bool(it.tests), True)
        lost = [name for name in it.edits if (it.crate, name) not in there]
        lost += [name for name in it.tests if not is_test(it.crate, name)]
        suite.check(f"{it.fault}: what the page names and is not there", lost, [])
        if it.edits:
            suite.check(f"{it.fault}: refused by {it.refused_by}", is_promised(it.crate, it.refused_by), True)


def statuses_have_faults(suite):
    """Each status of the manual but success, want of memory and words that are no UTF-8 has its fault."""
    page = (ROOT / "man" / "mg.1").read_text().partition(".Sh EXIT STATUS")[2].partition("\n.Sh ")[0]
    numbers = {int(number) for number in re.findall(r"^\.It ([0-9]+)", page, re.M)} - {0, 12, 18}
    told = {int(number) for it in faults(ROOT) for number in re.findall(r" status ([0-9]+)", it.fault)}
    suite.check("the statuses that have faults", sorted(told), sorted(numbers))


def tool_lists(suite):
    """The tool prints the faults, and refuses a crate that has no wrong bodies."""
    tool = [sys.executable, str(ROOT / "tools" / "wrong_bodies.py")]
    run = subprocess.run([*tool, "--list"], capture_output=True, text=True)
    suite.check("--list: a line for each fault", (run.returncode, len(run.stdout.splitlines())), (0, 1 + len(faults(ROOT))))
    run = subprocess.run([*tool, "mg_none"], capture_output=True, text=True)
    told = "wrong_bodies: mg_none has no edit in crates/mg_none/wrong-bodies\n"
    suite.check("a crate without wrong bodies", (run.returncode, run.stderr), (2, told))


# What the prover told of edits, cut short: the edited file, its output, and the function and the clauses.
REFUSALS = [
    ("src/bytes.rt", """\
./proofs/reader/PieceReader/offer/Answers.antt:7:95: error: `returns-then-is_of_kind-clause-reads`: expected type `c.self.inside.len < 255`
fn mg_parse::reader::PieceReader::offer: not proved
fn mg_parse::bytes::piece_len: no proof: expected answers in ./proofs/bytes/piece_len/Answers.antt; `search` did not prove `loop-byte-preserved`, `returns-then-len-eq-PIECE_BYTES-clause-is`
fn mg_parse::pairs::cut: no proof: it calls `mg_parse::bytes::piece_len`, which is not proved
""", ("mg_parse::bytes::piece_len", "is")),
    ("src/splitter.rt", """\
./proofs/splitter/Splitter/feed/Answers.antt:6:27: error: `returns-then-byte-eq-CLOSE-clause-stands`: expected type `c.args.byte = 2`
./proofs/splitter/Splitter/feed/Answers.antt:10:25: error: `returns-else-byte-eq-CLOSE-clause-stands`: computed as far as they go
fn mg_parse::splitter::Splitter::feed: not proved
""", ("mg_parse::splitter::Splitter::feed", "stands")),
    ("src/bytes.rt", """\
./proofs/bytes/is_term/Answers.antt:6:48: error: `returns-then-word-term`: expected type
fn mg_parse::bytes::is_term: not proved
""", ("mg_parse::bytes::is_term", "its clause")),
    ("src/lib.rt", """\
fn high::second: no proof: expected answers in ./proofs/second/Answers.antt; `search` did not prove `returns`
note: `returns` of proofs/second/Answers.antt must prove: record {far : c.next.result = c.args.number + 2}
""", ("high::second", "far")),
    ("src/writing.rt", """\
fn high::write_set: no proof: expected answers in ./proofs/write_set/Answers.antt; `search` did not prove `put_documents-requires-clause-head`
""", ("high::write_set", "head of put_documents")),
    ("src/lib.rt", "fn high::second: proved\n", ("", "")),
]


# What the prover told of a check, its status, and the begin of why it shows nothing of a contract.
JUDGED = [
    (1, "fn low::next: not proved\nlogic=not-proved\n", None),
    (0, "logic=proved functions=1\n", None),
    (1, "src/lib.rt:3:1: error: `number` is not in scope\nlogic=not-proved\n", "the edited text is not read: src/lib.rt:3:1"),
    (1, "src/lib.rt:3:1: error: `returns-clause-far`: expected type `2`\nlogic=not-proved\n", None),
    (1, "error[E0308]: mismatched types\n", "it did not reach the prover"),
]

# A file, and in each line of it that a number ends the place that the prover is asked to check for an edit there.
PLACES = """const STEP: u32 = 1; // low::bytes
pub fn next(number: u32) -> u32
    ensures more { result ≡ number + 1 } // low::bytes::next
{
    fn inner() { // low::bytes::next
    }
    inner(); // low::bytes::next
}

impl<'a, S: Store> Feed for PageFeed<'a, S> {
    type Dev = S; // low::bytes

    fn byte(&mut self) -> u8 {
        1 // low::bytes::PageFeedFeed::byte
    }
}

impl Canon {
    pub(crate) fn get(&self) -> u8 {
        2 // low::bytes::Canon::get
    }
}

static ROWS: [u8; 1] = [1]; // low::bytes
"""


def refusals_are_read(suite):
    """The function and the clauses that the prover's output tells of, and what shows nothing."""
    for status, output, wanted in JUDGED:
        why = not_judged(status, output, ["src/lib.rt"])
        suite.check(f"what shows nothing: {output}", why[: len(wanted)] if why and wanted else why, wanted)
    for file, output, wanted in REFUSALS:
        suite.check(f"the refusal of {wanted[0]}", refused_at(output, [file]), wanted)


def places_are_found(suite):
    """The function or the module that is checked for an edit."""
    for line in re.findall(r".* // .*", PLACES):
        text, _, wanted = line.partition(" // ")
        found = place_of("low", "src/bytes.rt", PLACES, PLACES.index(line) + len(text))
        suite.check(f"the place of {text.strip()}", found, wanted)
    suite.check("a definition has no place", place_of("low", "specs/Next.antt", PLACES, 9), "")
    suite.check("a place of the root file", place_of("low", "src/lib.rt", PLACES, 9), "low")


# A library, and a crate above it. Of its wrong bodies one is refused by its function, one does the same, and the third is of a
# constant that the function of another module reads.
SMALL = {
    "HANDLES": "Handles allowed: none.\n",
    "crates.txt": "low:\nhigh: low\n",
    "crates/low/src/lib.rt": """//! A number.
#![tactic(auto)]
ghost use Rattle.std.specs.Prelude.{◌≡◌, ◌+◌, ◌<◌};

/// The number behind another.
pub fn next(number: u32) -> u32
    requires small { number < 100 }
    ensures more { result ≡ number + 1 }
{
    number + 1
}
""",
    "crates/high/src/lib.rt": """//! Numbers further on.
#![tactic(auto)]
ghost use Rattle.std.specs.Prelude.{◌≡◌, ◌+◌, ◌<◌};

mod step;

use crate::step::STEP;
use low::next;

/// The second number behind another.
pub fn second(number: u32) -> u32
    requires small { number < 9 }
    ensures far { result ≡ number + 2 }
{
    next(next(number))
}

/// The number a step behind another.
pub fn behind(number: u32) -> u32
    requires small { number < 9 }
    ensures step { result ≡ number + 3 }
{
    number + STEP
}
""",
    "crates/high/src/step.rt": "//! A step.\n\n/// How far a step goes.\npub(crate) const STEP: u32 = 3;\n",
    "crates/high/wrong-bodies/a_step_is_longer.edit": "file: src/step.rt\nold: 3;\nnew: 4;\n",
    "crates/high/wrong-bodies/the_first_is_told.edit": "file: src/lib.rt\nold:     next(next(number))\nnew:     next(number)\n",
    "crates/high/wrong-bodies/the_same_is_told.edit": "file: src/lib.rt\nold:     next(next(number))\nnew:     next(number + 1)\n",
}


def lacks_rt(tool):
    """Whether there is no toolchain, so that a tool can't be tried; that is printed."""
    lacks = shutil.which("rt") is None
    if lacks:
        print(f"no rt: tools/{tool} was not tried")
    return lacks


def small_repository(folder):
    """Lays out the two crates, with the tools beside them."""
    root = pathlib.Path(folder)
    for name, text in SMALL.items():
        (root / name).parent.mkdir(parents=True, exist_ok=True)
        (root / name).write_text(text)
    shutil.copytree(ROOT / "tools", root / "tools", ignore=shutil.ignore_patterns("__pycache__"))
    return root


def libraries_are_used(suite):
    """Behind a gate a check takes the library below as the gate left it, and not once its text has changed."""
    if lacks_rt("libraries.py"):
        return
    with tempfile.TemporaryDirectory() as folder:
        root = small_repository(folder)
        tool = [sys.executable, str(root / "tools" / "libraries.py"), "high"]
        told = subprocess.run(tool, capture_output=True, text=True).stdout
        suite.check("libraries before a gate", told, "0 libraries are used as the gate left them; to be proved anew: low\n")
        for crate in ("low", "high"):
            subprocess.run(["rt", "fmt"], cwd=root / "crates" / crate, capture_output=True)
        gate = subprocess.run(["rt", "ci"], cwd=root, capture_output=True, text=True)
        suite.check("the gate over two crates", (gate.returncode, gate.stdout.splitlines()[-1:]), (0, ["2 passed, 0 failed"]))
        told = subprocess.run(tool, capture_output=True, text=True).stdout
        suite.check("libraries behind a gate", told, "1 libraries are used as the gate left them; to be proved anew: none\n")
        built = (root / "crates/low/out/rlib/low.rlib").stat().st_ino
        check = subprocess.run(["rt", "check", "--jobs", "1"], cwd=root / "crates/high", capture_output=True, text=True)
        suite.check("a check over them", (check.returncode, (root / "crates/low/out/rlib/low.rlib").stat().st_ino), (0, built))
        (root / "crates/low/out/rlib/stamp").unlink()
        text = next((root / "crates/low/src").iterdir())
        text.write_text(text.read_text() + "// Another line.\n")
        told = subprocess.run(tool, capture_output=True, text=True).stdout
        suite.check("libraries behind a change", told, "0 libraries are used as the gate left them; to be proved anew: low\n")


def tool_tries(suite):
    """The tool tells what refuses a wrong body, and ends with 1 where one is not refused."""
    if lacks_rt("wrong_bodies.py"):
        return
    with tempfile.TemporaryDirectory() as folder:
        root = small_repository(folder)
        tool = [sys.executable, str(root / "tools" / "wrong_bodies.py"), "--jobs", "1", "--table", str(root / "table")]
        run = subprocess.run(tool, capture_output=True, text=True)
        table = (root / "table").read_text()
        rows = [[cell.strip() for cell in line.strip("|").split("|")] for line in table.splitlines()[4:]]
        suite.check("rows of wrong bodies", [row[:5] for row in rows], [
            ["high", "a_step_is_longer", "high::behind", "step", "crate"],
            ["high", "the_first_is_told", "high::second", "far", "function"],
            ["high", "the_same_is_told", "", "NOT REFUSED", "crate"],
        ])
        suite.check("a wrong body that is not refused", (run.returncode, run.stdout.splitlines()[-1]), (1, "2 refused, 1 not refused"))
        left = sorted(path.name for path in (root / "crates" / "high").iterdir())
        suite.check("the crate is left as it was", left, ["src", "wrong-bodies"])


PARTS = [edits_apply, edits_are_named, faults_are_refused, statuses_have_faults, tool_lists, refusals_are_read, places_are_found, libraries_are_used, tool_tries]
